//! Just enough MIME: a message's header, its fields and its parts.

/// How deep parts lie in parts.
const DEPTH: u8 = 8;

pub struct Part<'a> {
    pub header: &'a [u8],
    pub body: &'a [u8],
    pub kind: String,
    pub subtype: String,
    pub parameters: Vec<(String, String)>,
    pub parts: Vec<Part<'a>>,
}

/// Header, with the empty line, and body.
pub fn split(octets: &[u8]) -> (&[u8], &[u8]) {
    if octets.starts_with(b"\r\n") {
        return octets.split_at(2);
    }
    match octets.windows(4).position(|four| four == b"\r\n\r\n") {
        Some(at) => octets.split_at(at + 4),
        None => (octets, &[]),
    }
}

/// The header's fields: each name, and the whole of its lines.
pub fn fields(header: &[u8]) -> Vec<(&[u8], &[u8])> {
    let mut fields = Vec::new();
    let mut start = 0;
    for end in line_ends(header) {
        let folded = matches!(header.get(end), Some(b' ' | b'\t'));
        if folded {
            continue;
        }
        let lines = &header[start..end];
        if let Some(colon) = lines.iter().position(|&octet| octet == b':') {
            fields.push((&lines[..colon], lines));
        }
        start = end;
    }
    fields
}

/// Where each line ends, the last one too if it has no line end.
fn line_ends(octets: &[u8]) -> impl Iterator<Item = usize> + '_ {
    let mut end = 0;
    octets
        .split_inclusive(|&octet| octet == b'\n')
        .map(move |line| {
            end += line.len();
            end
        })
}

/// A field's value, unfolded.
pub fn value(header: &[u8], name: &str) -> Option<String> {
    let (found, lines) = fields(header)
        .into_iter()
        .find(|(found, _)| found.eq_ignore_ascii_case(name.as_bytes()))?;
    let text = String::from_utf8_lossy(&lines[found.len() + 1..]);
    let text = text.replace(['\r', '\n'], "").replace('\t', " ");
    Some(text.trim().to_string())
}

/// What stands before the first semicolon, and the parameters behind it.
pub fn with_parameters(value: &str) -> (String, Vec<(String, String)>) {
    let mut bits = value.split(';');
    let first = bits.next().unwrap_or("").trim().to_string();
    let parameter = |(name, value): (&str, &str)| {
        let value = value.trim().trim_matches('"');
        (name.trim().to_ascii_uppercase(), value.to_string())
    };
    let parameters = bits.filter_map(|bit| bit.split_once('=')).map(parameter);
    (first, parameters.collect())
}

pub fn parse(octets: &[u8]) -> Part<'_> {
    parse_at(octets, 0)
}

fn parse_at(octets: &[u8], depth: u8) -> Part<'_> {
    let (header, body) = split(octets);
    let content = value(header, "Content-Type");
    let content = content.unwrap_or_else(|| "text/plain; charset=US-ASCII".into());
    let (full, parameters) = with_parameters(&content);
    let (kind, subtype) = full.split_once('/').unwrap_or(("text", "plain"));
    let mut part = Part {
        header,
        body,
        kind: kind.to_ascii_uppercase(),
        subtype: subtype.to_ascii_uppercase(),
        parameters,
        parts: Vec::new(),
    };
    if depth < DEPTH {
        let inner = match (part.kind.as_str(), part.subtype.as_str()) {
            ("MULTIPART", _) => boundaries(&part),
            ("MESSAGE", "RFC822") => vec![body],
            _ => Vec::new(),
        };
        part.parts = inner.into_iter().map(|p| parse_at(p, depth + 1)).collect();
    }
    if part.kind == "MULTIPART" && part.parts.is_empty() {
        (part.kind, part.subtype) = ("TEXT".into(), "PLAIN".into());
    }
    part
}

/// What lies between the boundaries of a multipart.
fn boundaries<'a>(part: &Part<'a>) -> Vec<&'a [u8]> {
    let boundary = part.parameters.iter().find(|(name, _)| name == "BOUNDARY");
    let Some((_, boundary)) = boundary else {
        return Vec::new();
    };
    let mark = format!("--{boundary}");
    let (mut between, mut from, mut start) = (Vec::new(), None, 0);
    for end in line_ends(part.body) {
        let line = &part.body[start..end];
        if let Some(rest) = line.strip_prefix(mark.as_bytes()) {
            if let Some(from) = from {
                // the line end before a boundary belongs to it
                between.push(&part.body[from..start.saturating_sub(2).max(from)]);
            }
            from = Some(end);
            if rest.starts_with(b"--") {
                break;
            }
        }
        start = end;
    }
    between
}

/// A part by its numbers.
pub fn find<'a, 'b>(part: &'b Part<'a>, path: &[usize]) -> Option<&'b Part<'a>> {
    let Some((&number, rest)) = path.split_first() else {
        return Some(part);
    };
    if part.kind == "MULTIPART" {
        return find(part.parts.get(number.checked_sub(1)?)?, rest);
    }
    match part.parts.first() {
        Some(inner) => find(inner, path),
        None if number == 1 => find(part, rest),
        None => None,
    }
}
