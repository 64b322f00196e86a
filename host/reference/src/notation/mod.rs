//! Records written as text, one a line: the mark, its numbers in the order of the layout, a name or command as it stands.
//! `host/vectors/README.md` says it for people.

pub mod assemble;
pub mod disassemble;

pub use assemble::{assemble, from_hex, records};
pub use disassemble::{disassemble, text};

/// A number of a record: what it is called, and how many octets it has.
type Field = (&'static str, usize);

/// How a kind of record is laid out: its mark, its numbers, and whether text follows.
struct Layout {
    mark: &'static str,
    fields: &'static [Field],
    text: bool,
}

const ID: Field = ("id", 2);
const ATTRIBUTES: Field = ("attributes", 1);
const QUIET: Field = ("quiet", 1);
const VALIDITY: Field = ("UIDVALIDITY", 4);
const COUNTER: Field = ("counter", 8);
const UID: Field = ("UID", 4);
const FLAGS: Field = ("flags", 1);
const SIZE: Field = ("size", 4);

const fn numbers(mark: &'static str, fields: &'static [Field]) -> Layout {
    let text = false;
    Layout { mark, fields, text }
}

const fn with_text(mark: &'static str, fields: &'static [Field]) -> Layout {
    let text = true;
    Layout { mark, fields, text }
}

const LAYOUTS: [Layout; 12] = [
    with_text("MB", &[ID, ATTRIBUTES, QUIET, VALIDITY, COUNTER]),
    numbers("DL", &[ID, QUIET]),
    with_text("RN", &[ID, QUIET]),
    numbers("SB", &[ID, ("subscribed", 1), QUIET]),
    numbers("RT", &[ID, ("rights", 1)]),
    numbers("ME", &[ID, UID, FLAGS, SIZE, COUNTER]),
    numbers("XP", &[ID, UID, COUNTER]),
    numbers("FL", &[ID, UID, FLAGS, COUNTER]),
    numbers("SE", &[ID]),
    numbers("CE", &[("class", 1)]),
    with_text("CM", &[]),
    numbers("DR", &[("count", 4)]),
];

/// The same of the records that had another layout before change counters.
const OLD_LAYOUTS: [Layout; 4] = [
    with_text("MB", &[ID, ATTRIBUTES, QUIET, VALIDITY]),
    numbers("ME", &[ID, UID, FLAGS, SIZE]),
    numbers("XP", &[ID, UID]),
    numbers("FL", &[ID, UID, FLAGS]),
];

impl Layout {
    /// How many octets the numbers have.
    fn width(&self) -> usize {
        self.fields.iter().map(|field| field.1).sum()
    }
}
