//! ESEARCH: the reader, and the faults it finds beside the grammar.

use super::filters::Filters;
use super::keys::Keys;
use super::reader::Reader;
use super::Verdict;
use crate::lines::{ALL, COUNT, MAX, MIN};
use crate::memory::*;

#[derive(Clone, PartialEq, Eq, Debug)]
pub struct Search {
    pub sources: Filters,
    /// What is to be answered, as bits.
    pub wanted: u8,
    pub keys: Keys,
    charset_known: bool,
    about_selected: bool,
    delayed: bool,
}

impl Search {
    /// What follows `ESEARCH`.
    pub fn read(reader: &mut Reader) -> Option<Search> {
        let mut sources = Filters::default();
        reader.space()?;
        let mut delayed = false;
        let mut about_selected = false;
        if reader.skip_word("IN") {
            reader.space()?;
            reader.listed(|reader| {
                let source = sources.read(reader, true)?;
                delayed |= source.selector == IS_DELAYED;
                about_selected |= source.selector == IS_SELECTED;
                sources.push(source);
                Some(())
            })?;
            reader.space()?;
        } else {
            about_selected = true;
            sources.push(Group {
                selector: IS_SELECTED,
                ..Group::default()
            });
        }
        let mut wanted = 0;
        if reader.skip_word("RETURN") {
            reader.space()?;
            wanted = returns(reader)?;
            reader.space()?;
        }
        let mut charset_known = true;
        if reader.skip_word("CHARSET") {
            reader.space()?;
            let charset = reader.atom_or_quoted()?;
            charset_known = charset.is("US-ASCII") || charset.is("UTF-8");
            reader.space()?;
        }
        Some(Search {
            sources,
            wanted: if wanted == 0 { ALL } else { wanted },
            keys: Keys::read(reader)?,
            charset_known,
            about_selected,
            delayed,
        })
    }

    pub fn verdict(&self, selected: bool) -> Verdict {
        if self.delayed || self.about_selected && !selected {
            Verdict::Bad
        } else if self.keys.foreign {
            Verdict::Unsupported
        } else if !self.charset_known {
            Verdict::BadCharset
        } else if self.sources.too_many() || self.keys.too_many() {
            Verdict::TooLarge
        } else {
            Verdict::Ok
        }
    }
}

/// The options of RETURN, each at most once.
fn returns(reader: &mut Reader) -> Option<u8> {
    if reader.rest().starts_with(b"()") {
        reader.take(b'(')?;
        reader.take(b')')?;
        return Some(0);
    }
    let mut wanted = 0;
    reader.listed(|reader| {
        let word = reader.atom()?;
        let is = |text: &str| word.eq_ignore_ascii_case(text.as_bytes());
        let option = match () {
            _ if is("MIN") => MIN,
            _ if is("MAX") => MAX,
            _ if is("ALL") => ALL,
            _ if is("COUNT") => COUNT,
            _ => return None,
        };
        let again = wanted & option != 0;
        wanted |= option;
        (!again).then_some(())
    })?;
    Some(wanted)
}
