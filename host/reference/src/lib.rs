//! The independent implementation of document 01 with requests 1 to 3 of 02 (change counters, the
//! parent, `why`): one session beside one store, written from the papers alone, to find wrong
//! definitions elsewhere and to measure against.

pub mod abnf;
pub mod account;
pub mod answers;
pub mod call;
pub mod cases;
pub mod command;
pub mod generate;
pub mod input;
pub mod lawful;
pub mod lines;
pub mod mailboxes;
pub mod matching;
pub mod memory;
pub mod messages;
pub mod names;
pub mod notation;
pub mod octets;
pub mod places;
pub mod random;
pub mod records;
pub mod selected;
pub mod why;

pub use call::{call, call_trusting, Answer};
pub use memory::Memory;
