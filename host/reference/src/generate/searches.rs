//! ESEARCH lines.

use super::commands::Line;

pub fn search(line: &mut Line) {
    line.word("ESEARCH");
    let free = line.random.chance(15);
    if line.random.chance(70) {
        sources(line, free);
    }
    behind_sources(line, free);
}

/// What follows the sources: results, charset, keys.
pub fn behind_sources(line: &mut Line, free: bool) {
    if line.random.chance(50) {
        returns(line, free);
    }
    if line.random.chance(10) {
        line.put(" ");
        line.word("CHARSET");
        let charset = line.random.pick(&[
            "UTF-8",
            "utf-8",
            "\"US-ASCII\"",
            "us-ascii",
            "\"\"",
            "latin1",
            "\"u\\\"\"",
            "a]",
        ]);
        line.put(" ");
        line.put(charset);
    }
    match line.random.below(60) {
        // around each of the three limits
        0 => {
            let lists = line.random.between(7, 10);
            line.put(" ");
            line.put(vec![b'('; lists]);
            key(line, 1, free);
            line.put(vec![b')'; lists]);
        }
        1 => {
            for _ in 0..line.random.between(29, 34) {
                line.put(" ");
                key(line, 0, false);
            }
        }
        2 => {
            line.put(" ");
            let parts = line.random.between(14, 18);
            set(line, parts, free);
        }
        _ => {
            let count = line.random.pick(&[1, 1, 1, 2, 3]);
            for _ in 0..count {
                line.put(" ");
                key(line, 3, free);
            }
        }
    }
}

fn sources(line: &mut Line, free: bool) {
    line.put(" ");
    line.word("IN");
    line.put(" ");
    let count = if line.random.chance(3) {
        line.random.between(7, 10)
    } else {
        line.random.between(1, 3)
    };
    line.list(count, |line| {
        if line.random.chance(15) {
            line.word("selected");
        } else if free && line.random.chance(5) {
            line.word("selected-delayed");
        } else {
            line.filter(true);
        }
    });
    if free && line.random.chance(5) {
        // a scope option, inside the list
        line.out.pop();
        line.put(" (x))");
    }
}

fn returns(line: &mut Line, free: bool) {
    line.put(" ");
    line.word("RETURN");
    line.put(" ");
    let mut options = ["MIN", "MAX", "ALL", "COUNT"];
    let turn = line.random.below(4);
    options.rotate_left(turn);
    if line.random.chance(50) {
        options.swap(0, 1);
    }
    if free && line.random.chance(20) {
        options[0] = line.random.pick(&["SAVE", "MIN", "PARTIAL"]);
    }
    let count = line.random.below(5);
    let mut next = options.iter();
    line.list(count, |line| {
        if let Some(option) = next.next() {
            line.word(option);
        }
    });
}

fn number(line: &mut Line, free: bool) {
    let lawful = ["0", "1", "2", "007", "100", "4999", "4294967295"];
    if free && line.random.chance(15) {
        return line.put("4294967296");
    }
    let number = line.random.pick(&lawful);
    line.put(number);
}

fn place(line: &mut Line, free: bool) {
    if free && line.random.chance(8) {
        let odd = line.random.pick(&["0", "07", "4294967296", "x"]);
        return line.put(odd);
    }
    match line.random.below(10) {
        0 | 1 => line.put("*"),
        2 => line.put("4294967295"),
        _ => {
            let number = line.random.between(1, 12).to_string();
            line.put(number);
        }
    }
}

fn set(line: &mut Line, parts: usize, free: bool) {
    for part in 0..parts {
        if part > 0 {
            line.put(",");
        }
        place(line, free);
        if line.random.chance(40) {
            line.put(":");
            place(line, free);
        }
    }
}

/// One key; `depth` bounds what it may hold.
pub fn key(line: &mut Line, depth: usize, free: bool) {
    if free && line.random.chance(25) {
        return foreign(line);
    }
    let plain = [
        "ALL",
        "ALL",
        "ALL",
        "ALL",
        "ALL",
        "ANSWERED",
        "DELETED",
        "DRAFT",
        "FLAGGED",
        "SEEN",
        "UNANSWERED",
        "UNDELETED",
        "UNDRAFT",
        "UNFLAGGED",
        "UNSEEN",
    ];
    match line.random.below(if depth > 0 { 24 } else { 16 }) {
        0..=10 => {
            let word = line.random.pick(&plain);
            line.word(word)
        }
        11 => {
            line.word("LARGER");
            line.put(" ");
            number(line, free)
        }
        12 => {
            line.word("SMALLER");
            line.put(" ");
            number(line, free)
        }
        13 => {
            line.word("UID");
            line.put(" ");
            let parts = line.random.between(1, 3);
            set(line, parts, free)
        }
        14 | 15 => {
            let parts = line.random.between(1, 3);
            set(line, parts, free)
        }
        16..=18 => {
            line.word("NOT");
            line.put(" ");
            key(line, depth - 1, free)
        }
        19..=21 => {
            line.word("OR");
            line.put(" ");
            key(line, depth - 1, free);
            line.put(" ");
            key(line, depth - 1, free)
        }
        _ => {
            let count = line.random.between(1, 3);
            line.list(count, |line| key(line, depth - 1, free))
        }
    }
}

/// Keys that are not served, and some that are no keys at all.
fn foreign(line: &mut Line) {
    let keys = [
        "BCC a",
        "BODY \"a b\"",
        "CC a]",
        "FROM \"\"",
        "SUBJECT \"q\\\"\"",
        "TEXT x",
        "TO *",
        "KEYWORD $Junk",
        "KEYWORD \"a\"",
        "UNKEYWORD a]",
        "BEFORE 1-Jan-2020",
        "ON \"31-dec-1999\"",
        "SINCE 99-feb-0000",
        "SENTBEFORE 1-Jan-20",
        "SENTON 123-Jan-2020",
        "SENTSINCE \"1-Jan-2020",
        "HEADER a \"b\"",
        "HEADER a",
        "NEW",
        "OLD",
        "RECENT",
        "UNRECENT",
        "YOUNGER 5",
        "$",
        "MODSEQ 1",
    ];
    let key = line.random.pick(&keys);
    line.put(key);
}
