//! The addresses of a header field, as ENVELOPE has them.

use crate::structure::{string, string_or_nil};

/// All of them, a group's between its name and an end, or NIL.
pub fn list(value: Option<String>) -> String {
    let text = without_comments(&value.unwrap_or_default());
    let (mut all, mut start, mut in_group) = (String::new(), 0, false);
    for (at, mark) in marks(&text) {
        let piece = &text[start..at];
        all += &match mark {
            ':' => format!("(NIL NIL {} NIL)", string(&unquoted(piece))),
            ';' if in_group => address(piece) + "(NIL NIL NIL NIL)",
            _ => address(piece),
        };
        in_group = mark == ':' || (mark == ',' && in_group);
        start = at + 1;
    }
    all += &address(&text[start..]);
    match all.is_empty() {
        true => "NIL".into(),
        false => format!("({all})"),
    }
}

/// What lies outside parentheses. Those in quotes are none.
fn without_comments(text: &str) -> String {
    let (mut depth, mut quotes) = (0u32, Quotes::default());
    let mut outside = |&letter: &char| {
        let quoted = quotes.take(letter, depth > 0);
        match letter {
            _ if quoted => {}
            '(' => depth += 1,
            ')' if depth > 0 => {
                depth -= 1;
                return false;
            }
            _ => {}
        }
        depth == 0
    };
    text.chars().filter(|letter| outside(letter)).collect()
}

/// Where a `,`, `:` or `;` parts addresses: outside quotes and brackets.
fn marks(text: &str) -> Vec<(usize, char)> {
    let (mut marks, mut inside, mut quotes) = (Vec::new(), false, Quotes::default());
    for (at, letter) in text.char_indices() {
        match letter {
            _ if quotes.take(letter, false) => {}
            '<' | '[' => inside = true,
            '>' | ']' => inside = false,
            ',' | ':' | ';' if !inside => marks.push((at, letter)),
            _ => {}
        }
    }
    marks
}

/// Quotes and backslashes on the way through a text.
#[derive(Default)]
struct Quotes {
    open: bool,
    escaped: bool,
}

impl Quotes {
    /// Whether the letter has no force of its own: it is quoted, or it quotes. In a comment only a backslash does.
    fn take(&mut self, letter: char, in_comment: bool) -> bool {
        if self.escaped {
            self.escaped = false;
            return true;
        }
        self.escaped = letter == '\\' && (self.open || in_comment);
        let quotes = letter == '"' && !in_comment;
        self.open ^= quotes;
        self.open || quotes || self.escaped
    }
}

/// A name without its quotes.
fn unquoted(text: &str) -> String {
    let mut escaped = false;
    let kept = text.trim().chars().filter(|&letter| {
        let kept = escaped || !matches!(letter, '\\' | '"');
        escaped = !escaped && letter == '\\';
        kept
    });
    kept.collect()
}

/// One address, nothing where there is none.
fn address(text: &str) -> String {
    let (name, address) = match (text.rfind('<'), text.rfind('>')) {
        (Some(open), Some(close)) if open < close => {
            (unquoted(&text[..open]), text[open + 1..close].trim())
        }
        _ => (String::new(), text.trim()),
    };
    if address.is_empty() {
        return String::new();
    }
    let (user, host) = address.rsplit_once('@').unwrap_or((address, "localhost"));
    let name = string_or_nil(Some(name).filter(|name| !name.is_empty()));
    format!("({name} NIL {} {})", string(&unquoted(user)), string(host))
}

#[cfg(test)]
mod tests {
    use super::*;

    #[test]
    fn lists() {
        let doe = r#"("Doe, John" NIL "john" "x.org")"#;
        let bo = r#"(NIL NIL "bo" "y")"#;
        for (text, wanted) in [
            (r#""Doe, John" <john@x.org>"#, doe.to_string()),
            (r#""Doe, John" <john@x.org>, bo@y"#, format!("{doe}{bo}")),
            (
                r#"bo@y,"Doe, John" <john@x.org> (a, "b)"#,
                format!("{bo}{doe}"),
            ),
            ("bo@y (Bo \\) the, second)", bo.into()),
            ("bo@y; bo@y;", format!("{bo}{bo}")),
            (
                r#""a \"b\" \\ (c" <bo@y>"#,
                r#"("a \"b\" \\ (c" NIL "bo" "y")"#.into(),
            ),
            ("\"x@y, z\"@h", r#"(NIL NIL "x@y, z" "h")"#.into()),
            (
                "Ann Lee <ann@[IPv6:::1]>",
                r#"("Ann Lee" NIL "ann" "[IPv6:::1]")"#.into(),
            ),
            (
                "bo@y, Team: bo@y, \"Doe, John\" <john@x.org>;, bo@y",
                format!(r#"{bo}(NIL NIL "Team" NIL){bo}{doe}(NIL NIL NIL NIL){bo}"#),
            ),
            ("none:;", r#"(NIL NIL "none" NIL)(NIL NIL NIL NIL)"#.into()),
        ] {
            assert_eq!(list(Some(text.into())), format!("({wanted})"), "{text}");
        }
        assert_eq!(list(None), "NIL");
        assert_eq!(list(Some(" , ".into())), "NIL");
    }
}
