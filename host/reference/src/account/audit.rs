//! What must hold after every call, beside the lines themselves.

use super::written::{is_answer, overflow, says, Says};
use super::{Account, Cause, Fate, Wait};
use crate::call::Answer;
use crate::records::Record;

/// Something that a program of these rules never does.
#[derive(Clone, PartialEq, Eq, Debug)]
pub enum Fault {
    /// Taken, and no record.
    Unread,
    /// Other lines than had to be written.
    Lines { must: String, wrote: String },
    /// A number that the client has no place for.
    Place(String),
    /// Owed at once, not told, not overflowed.
    Silent,
    /// It waits though the client knows it, or without a cause.
    Unexplained(Wait),
    /// The client doesn't know it, and no call waits to tell, or more than one.
    Forgotten(Wait),
    /// Another count than the lines still owed.
    Count {
        answered: Option<u32>,
        owed: Option<u32>,
    },
    /// The count said that nothing is owed any more, and something waits.
    Unsettled,
    /// Lost or put off without an overflow line, or such a line for nothing.
    Overflow,
    /// It ended, and nothing in the call ends such a wait.
    Ended(Wait),
}

impl Fault {
    pub(super) fn place(line: &[u8]) -> Fault {
        Fault::Place(text(&[line]))
    }
}

/// The lines that were to be written come first; behind them only a command has more to say.
pub(super) fn compare(taken: Option<&Record>, must: &[Vec<u8>], lines: &[&[u8]]) -> Vec<Fault> {
    let (first, rest) = lines.split_at(must.len().min(lines.len()));
    let answered = match (taken, rest) {
        (Some(Record::Command { .. }), [listed @ .., last]) => {
            listed.iter().all(|line| is_answer(line)) && says(last) == Says::Other
        }
        (Some(Record::Command { .. }), []) => false,
        _ => rest.is_empty(),
    };
    if first == must && answered {
        return Vec::new();
    }
    let must: Vec<&[u8]> = must.iter().map(|line| &line[..]).collect();
    let (must, wrote) = (text(&must), text(lines));
    vec![Fault::Lines { must, wrote }]
}

fn text(lines: &[&[u8]]) -> String {
    String::from_utf8_lossy(&lines.concat()).into_owned()
}

impl Account {
    pub(super) fn audit(
        &self,
        taken: Option<&Record>,
        answer: Answer,
        before: &[(usize, Wait)],
        lines: &[&[u8]],
    ) -> Vec<Fault> {
        let mut faults = self.own(lines);
        if taken.is_none() && answer.refusal == 0 {
            faults.push(Fault::Unread);
        }
        faults.extend(self.counted_rightly(taken, answer.count));
        faults.extend(self.unexplained());
        faults.extend(self.forgotten());
        faults.extend(self.ended(taken, before, lines));
        faults
    }

    /// The call's own fate against its lines.
    fn own(&self, lines: &[&[u8]]) -> Vec<Fault> {
        let own = self.fates.last();
        let stopped = lines.contains(&&overflow()[..]);
        let hit = matches!(own, Some(Fate::Lost | Fate::Waiting(_, Cause::Overflow)));
        let mut faults = Vec::new();
        if own == Some(&Fate::Silent) {
            faults.push(Fault::Silent);
        }
        if stopped != hit {
            faults.push(Fault::Overflow);
        }
        faults
    }

    /// A command's end answers the lines that its class is still owed, no other call anything.
    fn counted_rightly(&self, taken: Option<&Record>, answered: Option<u32>) -> Vec<Fault> {
        let mut faults = Vec::new();
        let class = match taken {
            Some(Record::End { class }) => Some(*class),
            _ => None,
        };
        let owed = class.map(|class| self.owed_to(class).len() as u32);
        if answered != owed {
            faults.push(Fault::Count { answered, owed });
        }
        let settled = class == Some(1) && answered == Some(0) && self.both_rights();
        if settled && !self.waiting().is_empty() {
            faults.push(Fault::Unsettled);
        }
        faults
    }

    /// Whatever waits is something that store and view differ in, or a mark of the time before
    /// NOTIFY.
    fn unexplained(&self) -> Vec<Fault> {
        let explained = |wait: Wait, cause: Cause| {
            let differs = |uid: u32| (self.message(uid).is_some(), self.view.contains(&uid));
            match wait {
                Wait::Arrival(uid) => differs(uid) == (true, false) && cause != Cause::Delayed,
                Wait::Removal(uid) => differs(uid) == (false, true),
                Wait::Mark(uid) => differs(uid) == (true, true) && cause == Cause::BeforeNotify,
            }
        };
        let fault = |fate: &Fate| match *fate {
            Fate::Waiting(wait, cause) if !explained(wait, cause) => Some(Fault::Unexplained(wait)),
            _ => None,
        };
        self.fates.iter().filter_map(fault).collect()
    }

    /// Wherever store and view differ, one call waits to say so.
    fn forgotten(&self) -> Vec<Fault> {
        let waiting = self.waiting();
        let arrivals = self
            .unannounced()
            .into_iter()
            .map(|message| Wait::Arrival(message.uid));
        let gone = |uid: &&u32| self.message(**uid).is_none();
        let removals = self.view.iter().filter(gone).map(|&uid| Wait::Removal(uid));
        arrivals
            .chain(removals)
            .filter(|wait| waiting.iter().filter(|(_, other)| other == wait).count() != 1)
            .map(Fault::Forgotten)
            .collect()
    }

    /// What waited before this call and doesn't now was told by it or dropped by it.
    fn ended(
        &self,
        taken: Option<&Record>,
        before: &[(usize, Wait)],
        lines: &[&[u8]],
    ) -> Vec<Fault> {
        let this = self.fates.len() - 1;
        let rightly = |&(number, wait): &(usize, Wait)| match self.fates[number] {
            Fate::Waiting(now, _) => now == wait,
            Fate::Told { by } => by == this && lines.iter().any(|line| tells(line, wait)),
            Fate::Dropped { by } => by == this && self.drops(taken, wait),
            _ => false,
        };
        let wrongly = before.iter().filter(|&one| !rightly(one));
        wrongly.map(|&(_, wait)| Fault::Ended(wait)).collect()
    }

    /// A new selection drops all, an expunge what was to be said of its message.
    fn drops(&self, taken: Option<&Record>, wait: Wait) -> bool {
        match taken {
            Some(Record::Select { .. }) => true,
            Some(&Record::Expunge { id, uid, .. }) => {
                id == self.selected && (wait == Wait::Arrival(uid) || wait == Wait::Mark(uid))
            }
            _ => false,
        }
    }
}

/// Is it a line by which such a wait may end?
fn tells(line: &[u8], wait: Wait) -> bool {
    matches!(
        (says(line), wait),
        (Says::Exists(_), Wait::Arrival(_))
            | (Says::Expunge(_), Wait::Removal(_))
            | (Says::Fetch { flags: true, .. }, Wait::Mark(_))
    )
}
