//! The push side of an IMAP server, proved, for hosts in Rust: what `docs/HOSTS.md` calls a session, beside its store.
//!
//! A host keeps one [`Memory`] for each connection, or lends memory of its own as [`Lent`]. It hands over every change as a
//! record ([`records`]), writes out what [`Memory::queue`] shows, and says with `DR` how much of it went out. The step asks
//! nothing: any octets and any memory give a clear answer, and a refusal leaves every octet as it was.
//!
//! ```
//! use borjavid::records::{command, create, message, Notice, LOOKUP, READ, SELECTABLE};
//! use borjavid::Memory;
//!
//! let mut session = Memory::new(65536);
//! for record in [
//!     create(1, SELECTABLE | LOOKUP | READ, Notice::Quiet, 7, 1, b"Ops/Alarms"),
//!     command(b"a NOTIFY SET (mailboxes Ops/Alarms (MessageNew MessageExpunge))"),
//!     message(1, 5, 0, 120, 2),
//! ] {
//!     session.step(&record).ok()?;
//! }
//! let mut client = Vec::new();
//! session.drain_to(&mut client)?;
//! assert!(client.ends_with(b"* STATUS \"Ops/Alarms\" (UIDNEXT 6 MESSAGES 1 HIGHESTMODSEQ 2)\r\n"));
//! assert!(session.queue().is_empty());
//! # Ok::<(), Box<dyn std::error::Error>>(())
//! ```

#![warn(missing_docs)]

pub mod answer;
pub mod layout;
pub mod memory;
mod raw;
pub mod records;

pub use answer::{Answer, Refusal};
pub use layout::{check_layout, WrongLayout, LAYOUT};
pub use memory::{Lent, Memory};
pub use raw::{Counts, Group, Mailbox, Name, Session};
