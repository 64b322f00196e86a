//! BODYSTRUCTURE and ENVELOPE, which mail programs ask for.

use crate::addresses;
use crate::mime::{self, Part};
use crate::parse::quoted;

pub fn string(text: &str) -> String {
    match text.bytes().all(|octet| (0x20..0x7f).contains(&octet)) {
        true => quoted(text),
        false => format!("{{{}}}\r\n{text}", text.len()),
    }
}

pub fn string_or_nil(text: Option<String>) -> String {
    text.map_or("NIL".into(), |text| string(&text))
}

fn parameters(all: &[(String, String)]) -> String {
    if all.is_empty() {
        return "NIL".into();
    }
    let one = |(name, value): &(String, String)| format!("{} {}", string(name), string(value));
    let all: Vec<String> = all.iter().map(one).collect();
    format!("({})", all.join(" "))
}

/// BODYSTRUCTURE, or BODY without what extends it.
pub fn structure(part: &Part, extended: bool) -> String {
    match part.kind.as_str() {
        "MULTIPART" => multipart(part, extended),
        _ => single(part, extended),
    }
}

fn multipart(part: &Part, extended: bool) -> String {
    let parts: String = part.parts.iter().map(|p| structure(p, extended)).collect();
    let more = match extended {
        true => format!(" {} NIL NIL NIL", parameters(&part.parameters)),
        false => String::new(),
    };
    format!("({parts} {}{more})", string(&part.subtype))
}

fn single(part: &Part, extended: bool) -> String {
    let field = |name: &str| mime::value(part.header, name);
    let lines = part.body.iter().filter(|&&octet| octet == b'\n').count();
    let mut text = format!(
        "({} {} {} {} {} {} {}",
        string(&part.kind),
        string(&part.subtype),
        parameters(&part.parameters),
        string_or_nil(field("Content-Id")),
        string_or_nil(field("Content-Description")),
        string(&field("Content-Transfer-Encoding").unwrap_or_else(|| "7BIT".into())),
        part.body.len()
    );
    match part.parts.first() {
        Some(inner) => {
            let (envelope, inside) = (envelope(inner.header), structure(inner, extended));
            text += &format!(" {envelope} {inside} {lines}");
        }
        None if part.kind == "TEXT" => text += &format!(" {lines}"),
        None => {}
    }
    if extended {
        text += &match field("Content-Disposition").map(|value| mime::with_parameters(&value)) {
            Some((kind, more)) => format!(" NIL ({} {}) NIL NIL", string(&kind), parameters(&more)),
            None => " NIL NIL NIL NIL".into(),
        };
    }
    text + ")"
}

pub fn envelope(header: &[u8]) -> String {
    let field = |name: &str| mime::value(header, name);
    let from = addresses::list(field("From"));
    let or_from =
        |name: &str| field(name).map_or(from.clone(), |value| addresses::list(Some(value)));
    let parts = [
        string_or_nil(field("Date")),
        string_or_nil(field("Subject")),
        from.clone(),
        or_from("Sender"),
        or_from("Reply-To"),
        addresses::list(field("To")),
        addresses::list(field("Cc")),
        addresses::list(field("Bcc")),
        string_or_nil(field("In-Reply-To")),
        string_or_nil(field("Message-Id")),
    ];
    format!("({})", parts.join(" "))
}
