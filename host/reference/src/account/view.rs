//! The selected mailbox: what its messages owe the client, now or at a command's end.

use super::due::{Asked, Due};
use super::written::line;
use super::{Account, Cause, Rule, Wait};
use crate::lines;
use crate::memory::*;

impl Account {
    /// `SE`: the host tells the client all there is, and nothing older matters.
    pub(super) fn select(&mut self, id: u16) -> Option<Due> {
        self.drop_waiting(|_| true);
        self.selected = id;
        self.view.clear();
        self.view = self.unannounced().iter().map(|one| one.uid).collect();
        None
    }

    pub(super) fn arrived(&mut self, message: Message) -> Option<Due> {
        let mailbox = self.mailboxes.get_mut(&message.mailbox)?;
        mailbox.uid_next = message.uid + 1;
        mailbox.counter = message.counter;
        mailbox.messages.insert(message.uid, message);
        if message.mailbox != self.selected {
            return self.counted(message.mailbox, NEW);
        }
        let wait = Wait::Arrival(message.uid);
        Some(match self.delay(NEW) {
            Some(cause) => Due::Later(wait, cause),
            None => self.at_once(self.announcement(), Some(wait)),
        })
    }

    /// What was still to be said of the message itself is pointless once it is gone.
    pub(super) fn expunged(&mut self, id: u16, uid: u32, counter: u64) -> Option<Due> {
        let mailbox = self.mailboxes.get_mut(&id)?;
        mailbox.counter = counter;
        mailbox.messages.remove(&uid);
        if id != self.selected {
            return self.counted(id, EXPUNGE);
        }
        self.drop_waiting(|wait| wait == Wait::Arrival(uid) || wait == Wait::Mark(uid));
        let Some(place) = self.place_of(uid) else {
            return Some(Due::Nothing(self.unknown(EXPUNGE)));
        };
        let wait = Wait::Removal(uid);
        Some(match self.delay(EXPUNGE) {
            Some(cause) => Due::Later(wait, cause),
            None => self.at_once(vec![line(|out| lines::expunge(out, place))], Some(wait)),
        })
    }

    /// Of the three events only a flag change may be passed over.
    pub(super) fn flagged(&mut self, id: u16, uid: u32, flags: u8, counter: u64) -> Option<Due> {
        let mailbox = self.mailboxes.get_mut(&id)?;
        mailbox.counter = counter;
        let message = mailbox.messages.get_mut(&uid)?;
        (message.flags, message.counter) = (flags, counter);
        let message = *message;
        if id != self.selected {
            return self.counted(id, FLAGS);
        }
        let Some(place) = self.place_of(uid) else {
            return Some(Due::Nothing(self.unknown(FLAGS)));
        };
        Some(match self.delay(FLAGS) {
            None => self.at_once(vec![fetch(place, &message)], None),
            Some(Cause::BeforeNotify) => Due::Later(Wait::Mark(uid), Cause::BeforeNotify),
            Some(cause) => Due::Nothing(passed_over(cause)),
        })
    }

    /// Why nothing is owed where a message went or changed that the client doesn't know: that is the last thing to be said.
    fn unknown(&self, event: u8) -> Rule {
        match self.delay(event) {
            None | Some(Cause::Delayed) => Rule::Unannounced,
            Some(cause) => passed_over(cause),
        }
    }

    /// Lines that the selected mailbox's own group asks for.
    fn at_once(&self, lines: Vec<Vec<u8>>, missed: Option<Wait>) -> Due {
        let group = self.selected_group().map_or(0, |(number, _)| number);
        Due::Now(Asked {
            lines,
            group,
            missed,
        })
    }

    /// The number by which the client knows a message.
    fn place_of(&self, uid: u32) -> Option<u32> {
        let known = self.view.iter().position(|&known| known == uid)?;
        Some(known as u32 + 1)
    }

    /// The group about the selected mailbox, and its number from 1 on.
    fn selected_group(&self) -> Option<(usize, Group)> {
        let groups = self.groups?;
        let about = |group: &Group| matches!(group.selector, IS_SELECTED | IS_DELAYED);
        let place = groups.used().iter().position(about)?;
        Some((place + 1, groups.group[place]))
    }

    /// Why an event of the selected mailbox is not told at once, if it isn't.
    fn delay(&self, event: u8) -> Option<Cause> {
        if !self.both_rights() {
            return Some(Cause::RightMissing);
        }
        if self.groups.is_none() {
            return Some(Cause::BeforeNotify);
        }
        match self.selected_group() {
            None => Some(Cause::NoGroup),
            Some((_, group)) if group.events & event == 0 => Some(Cause::NotAsked),
            Some((_, group)) => {
                let delayed = event == EXPUNGE && group.selector == IS_DELAYED;
                delayed.then_some(Cause::Delayed)
            }
        }
    }

    /// EXISTS and, where attributes are asked, a FETCH for each message it makes known.
    fn announcement(&self) -> Vec<Vec<u8>> {
        let new = self.unannounced();
        let known = self.view.len() as u32;
        let mut told = vec![line(|out| lines::exists(out, known + new.len() as u32))];
        let attributes = self
            .selected_group()
            .map_or(0, |(_, group)| group.attributes);
        if attributes != 0 {
            for (place, message) in (known + 1..).zip(new) {
                told.push(line(|out| lines::fetch(out, place, attributes, message)));
            }
        }
        told
    }

    /// What the end of a command of this class owes, were there room for all of it.
    pub(super) fn owed_to(&self, class: u8) -> Vec<Vec<u8>> {
        let mut owed = Vec::new();
        if !self.both_rights() {
            return owed;
        }
        let waits: Vec<Wait> = self.waiting().into_iter().map(|(_, wait)| wait).collect();
        let mut view = self.view.clone();
        if class == 1 {
            let removed = |&uid: &u32| waits.contains(&Wait::Removal(uid));
            // each number counts on the lines before it
            while let Some(place) = view.iter().position(removed) {
                view.remove(place);
                owed.push(line(|out| lines::expunge(out, place as u32 + 1)));
            }
        }
        if waits.iter().any(|wait| matches!(wait, Wait::Arrival(_))) {
            view.extend(self.unannounced().iter().map(|message| message.uid));
            owed.push(line(|out| lines::exists(out, view.len() as u32)));
        }
        for (place, &uid) in (1..).zip(&view) {
            if let Some(message) = self
                .message(uid)
                .filter(|_| waits.contains(&Wait::Mark(uid)))
            {
                owed.push(fetch(place, message));
            }
        }
        owed
    }

    /// As many lines from the front as there is room for.
    pub(super) fn fitting(&self, lines: Vec<Vec<u8>>) -> Vec<Vec<u8>> {
        let mut room = self.room();
        let fits = |line: &Vec<u8>| {
            let rest = room.checked_sub(line.len());
            room = rest.unwrap_or(0);
            rest.is_some()
        };
        lines.into_iter().take_while(fits).collect()
    }
}

/// The rule by which an event is passed over that isn't told for this cause, and can't wait.
fn passed_over(cause: Cause) -> Rule {
    match cause {
        Cause::RightMissing => Rule::RightMissing,
        // before NOTIFY there are no groups either
        Cause::BeforeNotify | Cause::NoGroup => Rule::NoGroup,
        _ => Rule::NotAsked,
    }
}

/// The line of a flag change.
fn fetch(place: u32, message: &Message) -> Vec<u8> {
    line(|out| lines::fetch(out, place, WITH_UID | WITH_FLAGS, message))
}
