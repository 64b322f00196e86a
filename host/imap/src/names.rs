//! Names of mailboxes.

pub const INBOX: &str = "INBOX";
/// Shared mailboxes lie beneath this one, which is none itself.
pub const SHARED: &str = "Shared";

/// A client's spelling of INBOX is as good as another.
pub fn fold(name: &str) -> String {
    match name.eq_ignore_ascii_case(INBOX) {
        true => INBOX.into(),
        false => name.into(),
    }
}

/// Names that the library takes, less those with a wildcard in them.
pub fn is_valid(name: &str) -> bool {
    (1..=64).contains(&name.len())
        && name
            .bytes()
            .all(|octet| (0x20..0x7f).contains(&octet) && !b"*%".contains(&octet))
        && name.split('/').all(|part| !part.is_empty())
        && name != SHARED
}

pub fn is_shared(name: &str) -> bool {
    is_beneath(name, SHARED)
}

pub fn is_beneath(name: &str, upper: &str) -> bool {
    name.strip_prefix(upper)
        .is_some_and(|rest| rest.starts_with('/'))
}

/// The names above this one, from the top.
pub fn parents(name: &str) -> impl Iterator<Item = String> + '_ {
    name.match_indices('/').map(|(at, _)| fold(&name[..at]))
}

/// The name's parents from the top, and the name itself. The root of the shared ones is no mailbox.
pub fn with_parents(name: &str) -> Vec<String> {
    (parents(name).chain([fold(name)]))
        .filter(|upper| upper != SHARED)
        .collect()
}

/// Whether a name is like a pattern of LIST: `*` is anything, `%` anything without a `/`. The places where the pattern may
/// stand are followed together, since trying one after the other would take a client's `*a*a*a*a..` for hours.
pub fn is_like(name: &str, pattern: &str) -> bool {
    let (name, pattern) = (name.as_bytes(), pattern.as_bytes());
    let mut open = vec![false; pattern.len() + 1];
    open[0] = true;
    pass_wildcards(&mut open, pattern);
    for &octet in name {
        let mut next = vec![false; pattern.len() + 1];
        for (at, &wanted) in pattern.iter().enumerate().filter(|&(at, _)| open[at]) {
            match wanted {
                b'*' => next[at] = true,
                b'%' => next[at] |= octet != b'/',
                _ => next[at + 1] |= wanted == octet,
            }
        }
        pass_wildcards(&mut next, pattern);
        open = next;
    }
    open[pattern.len()]
}

/// A wildcard may also stand for nothing.
fn pass_wildcards(open: &mut [bool], pattern: &[u8]) {
    for (at, wanted) in pattern.iter().enumerate() {
        if open[at] && b"*%".contains(wanted) {
            open[at + 1] = true;
        }
    }
}

#[cfg(test)]
mod tests {
    use super::*;

    #[test]
    fn patterns() {
        for (name, pattern, like) in [
            ("a/b", "*", true),
            ("a/b", "%", false),
            ("a", "%", true),
            ("a/b", "%/%", true),
            ("a/b/c", "a/%", false),
            ("a/b/c", "a/*", true),
            ("a", "a/*", false),
            ("ab", "a%b", true),
            ("ab", "", false),
            ("", "", true),
        ] {
            assert_eq!(is_like(name, pattern), like, "{name} {pattern}");
        }
        let name = "a".repeat(64);
        assert!(!is_like(&name, &("*a".repeat(60) + "b")));
    }

    #[test]
    fn parents() {
        assert_eq!(with_parents("a/b/c"), ["a", "a/b", "a/b/c"]);
        assert_eq!(with_parents("Shared/x"), ["Shared/x"]);
        assert_eq!(with_parents("inbox/x"), ["INBOX", "inbox/x"]);
    }
}
