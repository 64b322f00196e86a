//! NOTIFY SET: the reader, and the faults it finds beside the grammar.

use super::fetch;
use super::filters::Filters;
use super::reader::Reader;
use super::Verdict;
use crate::lawful::paired;
use crate::memory::*;

/// An event that is named in the RFC or any other atom, and not served.
const OTHER: u8 = 0x20;
/// AnnotationChange: not served either, but lawful with the selected mailbox.
const ANNOTATION: u8 = 0x40;

#[derive(Clone, Default, PartialEq, Eq, Debug)]
pub struct Notify {
    pub status: bool,
    pub filters: Filters,
    selected_groups: usize,
    /// A group breaks a rule that the grammar has no words for.
    misused: bool,
    foreign_event: bool,
    foreign_attribute: bool,
}

impl Notify {
    /// What follows `SET`.
    pub fn read(reader: &mut Reader) -> Option<Notify> {
        let mut notify = Notify::default();
        reader.space()?;
        if reader.skip_word("STATUS") {
            notify.status = true;
            reader.space()?;
        }
        notify.group(reader)?;
        while reader.skip(b' ') {
            notify.group(reader)?;
        }
        Some(notify)
    }

    pub fn verdict(&self) -> Verdict {
        if self.misused || self.selected_groups > 1 {
            Verdict::Bad
        } else if self.foreign_event {
            Verdict::BadEvent
        } else if self.foreign_attribute {
            Verdict::Unsupported
        } else if self.filters.too_many() {
            Verdict::TooLarge
        } else {
            Verdict::Ok
        }
    }

    fn group(&mut self, reader: &mut Reader) -> Option<()> {
        reader.take(b'(')?;
        let mut group = self.filters.read(reader, false)?;
        reader.space()?;
        let mut asked = Asked::default();
        if reader.peek() == Some(b'(') {
            reader.listed(|reader| asked.event(reader))?;
        } else {
            reader.word("NONE")?;
        }
        reader.take(b')')?;
        self.judge(&asked, matches!(group.selector, IS_SELECTED | IS_DELAYED));
        group.events = asked.events & (MESSAGE_EVENTS | MAILBOX_EVENTS);
        group.attributes = asked.attributes;
        self.filters.push(group);
        Some(())
    }

    fn judge(&mut self, asked: &Asked, about_selected: bool) {
        let events = asked.events;
        self.selected_groups += usize::from(about_selected);
        // an annotation change needs the two message events just as a flag change does
        let changes = if events & ANNOTATION != 0 {
            events | FLAGS
        } else {
            events
        };
        self.misused |= !paired(changes)
            || about_selected && events & (MAILBOX_EVENTS | OTHER) != 0
            || !about_selected && asked.with_attributes;
        self.foreign_event |= events & (OTHER | ANNOTATION) != 0;
        self.foreign_attribute |= asked.foreign_attribute;
    }
}

/// What one group asks.
#[derive(Default)]
struct Asked {
    events: u8,
    attributes: u8,
    with_attributes: bool,
    foreign_attribute: bool,
}

impl Asked {
    fn event(&mut self, reader: &mut Reader) -> Option<()> {
        let word = reader.atom()?;
        let is = |text: &str| word.eq_ignore_ascii_case(text.as_bytes());
        let event = match () {
            _ if is("MessageNew") => NEW,
            _ if is("MessageExpunge") => EXPUNGE,
            _ if is("FlagChange") => FLAGS,
            _ if is("MailboxName") => MAILBOX_NAME,
            _ if is("SubscriptionChange") => SUBSCRIPTION,
            _ if is("AnnotationChange") => ANNOTATION,
            _ => OTHER,
        };
        self.events |= event;
        if event == NEW && reader.rest().starts_with(b" (") {
            reader.space()?;
            self.with_attributes = true;
            reader.listed(|reader| {
                let attribute = fetch::attribute(reader)?;
                self.attributes |= attribute;
                self.foreign_attribute |= attribute == 0;
                Some(())
            })?;
        }
        Some(())
    }
}
