//! Tests of the library: what it adds to the proved calls.

mod alist;
mod alist_refused;
mod calls;
mod certificate;
mod code;
mod gen;
mod refusal;
mod run;
mod scale;
mod version;
mod word;
