//! How what waits comes to its end: by a line that tells it, or with nothing left to tell.

use super::audit::Fault;
use super::written::{says, Says};
use super::{Account, Fate, Wait};

impl Account {
    /// The lines of the call in hand, as its client reads them.
    pub(super) fn settle(&mut self, lines: &[&[u8]]) -> Vec<Fault> {
        let mut faults = Vec::new();
        for line in lines {
            if !self.read(line) {
                faults.push(Fault::place(line));
            }
        }
        faults
    }

    /// One line; false where its number makes no sense to the client.
    fn read(&mut self, line: &[u8]) -> bool {
        match says(line) {
            Says::Exists(count) => {
                let new: Vec<u32> = self.unannounced().iter().map(|one| one.uid).collect();
                self.view.extend(new);
                self.tell(|wait| matches!(wait, Wait::Arrival(_)));
                self.view.len() == count
            }
            Says::Expunge(place) => {
                let Some(uid) = self.at(place) else {
                    return false;
                };
                self.view.remove(place - 1);
                self.tell(|wait| wait == Wait::Removal(uid));
                true
            }
            Says::Fetch { place, flags } => {
                let Some(uid) = self.at(place) else {
                    return false;
                };
                if flags {
                    self.tell(|wait| wait == Wait::Mark(uid));
                }
                true
            }
            Says::Overflow => {
                self.groups = Some(Default::default());
                true
            }
            Says::Other => true,
        }
    }

    /// The UID at a place of the view, counted from 1.
    fn at(&self, place: usize) -> Option<u32> {
        self.view.get(place.checked_sub(1)?).copied()
    }

    fn tell(&mut self, which: impl Fn(Wait) -> bool) {
        let by = self.fates.len();
        self.end(which, Fate::Told { by });
    }

    pub(super) fn drop_waiting(&mut self, which: impl Fn(Wait) -> bool) {
        let by = self.fates.len();
        self.end(which, Fate::Dropped { by });
    }

    fn end(&mut self, which: impl Fn(Wait) -> bool, last: Fate) {
        for fate in &mut self.fates {
            if matches!(*fate, Fate::Waiting(wait, _) if which(wait)) {
                *fate = last;
            }
        }
    }
}
