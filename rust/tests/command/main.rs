//! The command, through its built program.

mod certificates;
mod code;
mod decode;
mod failures;
mod forms;
mod judge;
mod live;
mod pieces;
mod scale;
mod sent;
mod support;
mod terminal;
mod usage;
