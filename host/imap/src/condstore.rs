//! What is left of CONDSTORE (RFC 7162) to a host whose library writes MODSEQ and HIGHESTMODSEQ: the words in the client's own
//! commands, and that it asked for them.

use crate::parse::{bad, Read, Reader};

/// `(CONDSTORE)` behind SELECT.
pub fn select_parameter(reader: &mut Reader) -> Read<()> {
    reader.need(b'(')?;
    if !reader.has_word("CONDSTORE") {
        return bad("no such parameter");
    }
    reader.need(b')')
}

/// `(CHANGEDSINCE n)` behind FETCH, and other words that the caller knows.
pub fn changed_since(
    reader: &mut Reader,
    mut other: impl FnMut(&str) -> bool,
) -> Read<Option<u64>> {
    let mut since = None;
    reader.list(|reader| {
        match reader.word()?.as_str() {
            "CHANGEDSINCE" => {
                reader.space()?;
                since = Some(reader.number()?);
            }
            word if other(word) => {}
            _ => return bad("no such modifier"),
        }
        Ok(())
    })?;
    Ok(since)
}

/// `(UNCHANGEDSINCE n)` and a space before STORE's flags.
pub fn unchanged_since(reader: &mut Reader) -> Read<Option<u64>> {
    if !reader.eat(b'(') {
        return Ok(None);
    }
    if !reader.has_word("UNCHANGEDSINCE") {
        return bad("no such modifier");
    }
    reader.space()?;
    let counter = reader.number()?;
    reader.need(b')')?;
    reader.space()?;
    Ok(Some(counter))
}

/// A space and `["entry" type ]n` behind the search key MODSEQ. There are no counters for single flags, so entries say nothing.
pub fn search_key(reader: &mut Reader) -> Read<u64> {
    reader.space()?;
    if reader.peek() == b'"' {
        reader.string()?;
        reader.space()?;
        reader.word()?;
        reader.space()?;
    }
    reader.number()
}
