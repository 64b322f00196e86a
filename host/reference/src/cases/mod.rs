//! Cases for the program `run_cases`: calls on memory that starts empty, with what each must answer and what the queue must
//! hold behind it.

pub mod random;
pub mod stored;
pub mod text;

use crate::{call, Memory};
use std::io::{self, Write};

/// Stands for 'no count' in the octets.
const NO_COUNT: u32 = u32::MAX;

/// What `vectors` has room for.
pub const NAME_MOST: usize = 256;
pub const CALL_MOST: usize = 70_000;
pub const HELD_MOST: usize = 65_600;

#[derive(Clone, PartialEq, Eq, Debug)]
pub struct Call {
    pub octets: Vec<u8>,
    /// 0 for none.
    pub refusal: u8,
    pub count: Option<u32>,
    /// All that the queue holds behind the call.
    pub held: Vec<u8>,
}

#[derive(Clone, PartialEq, Eq, Debug)]
pub struct Case {
    pub name: String,
    pub queue: usize,
    pub mailboxes: usize,
    pub messages: usize,
    pub calls: Vec<Call>,
}

impl Case {
    /// The case in octets: five numbers and the name, then for each call four numbers, its octets and those in the queue.
    /// A number has four octets, the lowest first.
    pub fn write(&self, out: &mut impl Write) -> io::Result<()> {
        assert!((1..=NAME_MOST).contains(&self.name.len()), "{}", self.name);
        assert!(!self.name.contains('\n'), "{}", self.name);
        for number in [
            self.name.len(),
            self.queue,
            self.mailboxes,
            self.messages,
            self.calls.len(),
        ] {
            out.write_all(&(number as u32).to_le_bytes())?;
        }
        out.write_all(self.name.as_bytes())?;
        self.calls.iter().try_for_each(|call| call.write(out))
    }

    /// The line that `vectors` writes where all is as expected.
    pub fn passed(&self) -> String {
        format!("{}: {} calls, ok\n", self.name, self.calls.len())
    }

    /// The first call that the independent program answers otherwise, from 1 on, with what it does.
    pub fn judge(&self) -> Result<(), (usize, Call)> {
        let mut memory = Memory::new(self.queue, self.mailboxes, self.messages);
        for (place, wanted) in self.calls.iter().enumerate() {
            let got = made(&mut memory, wanted.octets.clone());
            if got != *wanted {
                return Err((place + 1, got));
            }
        }
        Ok(())
    }
}

impl Call {
    fn write(&self, out: &mut impl Write) -> io::Result<()> {
        assert!(self.octets.len() <= CALL_MOST && self.held.len() <= HELD_MOST);
        for number in [
            u32::from(self.refusal),
            self.count.unwrap_or(NO_COUNT),
            self.octets.len() as u32,
            self.held.len() as u32,
        ] {
            out.write_all(&number.to_le_bytes())?;
        }
        out.write_all(&self.octets)?;
        out.write_all(&self.held)
    }
}

/// A call with what the independent program makes of it.
pub fn made(memory: &mut Memory, octets: Vec<u8>) -> Call {
    let answer = call(memory, &octets);
    Call {
        octets,
        refusal: answer.refusal,
        count: answer.count,
        held: memory.held().to_vec(),
    }
}

/// The last line that `vectors` writes if none of these cases is wrong.
pub fn total(cases: &[Case]) -> String {
    let calls: usize = cases.iter().map(|case| case.calls.len()).sum();
    format!("{} cases, {calls} calls, 0 wrong\n", cases.len())
}
