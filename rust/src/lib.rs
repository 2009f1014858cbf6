//! An LP decoder for sparse parity-check codes whose *certified* mark is proved, and a proved judge of
//! anybody's certificates.
//!
//! A [`Code`] is a parity-check table. It [decodes](Code::decode) a frame, one signed number for each bit,
//! positive where the bit is likelier 0, by a [`Run`] of at most 1,024 rounds. A frame that comes out
//! [`Answer::Certified`] has a [`Word`] that agrees with the frame at least as well as every codeword and
//! every point of the parity relaxation, and a [`Certificate`] by which [`Code::judge`] tells anybody so. The
//! judge also says of many that no other codeword agrees as well: [`Verdict::Certified`]. What is wrong with an
//! input is a [`Refusal`] by number.
//!
//! ```
//! use jugnayap::{Answer, Code, Verdict};
//!
//! let code = Code::from_alist(b"3 1\n1 3\n1 1 1\n3\n1\n1\n1\n1 2 3\n").unwrap();
//! let frame = [4000, 4000, -2000];
//! match code.decode(&frame)? {
//!     Answer::Certified(found) => {
//!         assert_eq!(found.word.to_string(), "000");
//!         assert_eq!(code.agreement(&frame, &found.word)?, 6000);
//!         let verdict = code.judge(&frame, &found.word, &found.certificate)?;
//!         assert_eq!(verdict, Verdict::Certified { sole: true });
//!     }
//!     _ => unreachable!("this frame is certified after 3 rounds"),
//! }
//! # Ok::<(), jugnayap::Refusal>(())
//! ```
//!
//! The decoder and the judge are the proved library `libjugnayap.a`; this crate is the plain Rust around it:
//! buffers, text and the [alist] format.

#![warn(missing_docs)]
#![deny(unsafe_code)]

pub mod alist;
mod bytes;
#[allow(unsafe_code)]
pub mod calls;
mod certificate;
mod code;
mod ffi;
pub mod limits;
mod refusal;
mod run;
pub mod scale;
mod text;
mod word;

pub use calls::{Cut, Verdict};
pub use certificate::{Certificate, Entry, NotCertificate};
pub use code::Code;
pub use refusal::Refusal;
pub use run::{Answer, Certified, Run};
pub use word::Word;

/// The example of the README is a test.
#[cfg(doctest)]
#[doc = include_str!("../README.md")]
struct Readme;
