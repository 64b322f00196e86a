//! Reading a command that lies whole in memory, literals inside it as `{n}` CR LF and n octets.

use crate::names;

/// Why a command ends before its time.
pub enum Stop {
    /// It is not of the grammar: BAD, and why. The reason lies in what the client sent, never in what the store hides.
    Bad(&'static str),
    /// NO, and this text.
    No(String),
    /// The connection is gone.
    Gone,
}

pub type Read<T> = Result<T, Stop>;

pub fn bad<T>(why: &'static str) -> Read<T> {
    Err(Stop::Bad(why))
}

/// Ranges of numbers or UIDs; 0 stands for `*`.
pub type Set = Vec<(u32, u32)>;

/// What a number too large for its place gets.
pub const TOO_LARGE: Stop = Stop::Bad("number too large");

pub fn is_atom(octet: u8) -> bool {
    (0x21..0x7f).contains(&octet) && !b"(){%*\"\\]".contains(&octet)
}

pub fn is_tag(tag: &[u8]) -> bool {
    let good = |&octet: &u8| (is_atom(octet) || octet == b']') && octet != b'+';
    !tag.is_empty() && tag.iter().all(good)
}

pub struct Reader<'a> {
    pub octets: &'a [u8],
    pub at: usize,
}

impl<'a> Reader<'a> {
    pub fn new(octets: &'a [u8]) -> Reader<'a> {
        Reader { octets, at: 0 }
    }

    /// The next octet, 0 at the end.
    pub fn peek(&self) -> u8 {
        *self.octets.get(self.at).unwrap_or(&0)
    }

    pub fn rest(&self) -> &'a [u8] {
        &self.octets[self.at..]
    }

    pub fn is_end(&self) -> bool {
        self.at >= self.octets.len()
    }

    pub fn end(&self) -> Read<()> {
        match self.is_end() {
            true => Ok(()),
            false => bad("more than the command takes"),
        }
    }

    pub fn eat(&mut self, octet: u8) -> bool {
        let yes = self.octets.get(self.at) == Some(&octet);
        self.at += usize::from(yes);
        yes
    }

    pub fn need(&mut self, octet: u8) -> Read<()> {
        if self.eat(octet) {
            return Ok(());
        }
        bad(match octet {
            b' ' => "a space is missing",
            b'(' => "( is missing",
            b')' => ") is missing",
            b'[' => "[ is missing",
            b']' => "] is missing",
            b'{' => "a string is missing",
            _ => "wrong punctuation",
        })
    }

    pub fn space(&mut self) -> Read<()> {
        self.need(b' ')
    }

    /// One octet at least, as long as they are so.
    pub fn run(&mut self, so: impl Fn(u8) -> bool) -> Read<&'a [u8]> {
        let rest = self.rest();
        let len = rest.iter().take_while(|&&octet| so(octet)).count();
        self.at += len;
        match len {
            0 => bad("a word is missing"),
            _ => Ok(&rest[..len]),
        }
    }

    /// An atom in capitals.
    pub fn word(&mut self) -> Read<String> {
        Ok(text(self.run(is_atom)?).to_ascii_uppercase())
    }

    /// The word, if it comes next.
    pub fn has_word(&mut self, wanted: &str) -> bool {
        let before = self.at;
        let has = self.word().is_ok_and(|word| word == wanted);
        if !has {
            self.at = before;
        }
        has
    }

    pub fn flag(&mut self) -> Read<String> {
        Ok(text(self.run(|octet| is_atom(octet) || octet == b'\\')?))
    }

    pub fn number(&mut self) -> Read<u64> {
        let digits = self.run(|octet| octet.is_ascii_digit());
        let digits = digits.map_err(|_| Stop::Bad("a number is missing"))?;
        text(digits).parse().map_err(|_| TOO_LARGE)
    }

    /// A number of octets, or of parts.
    pub fn size(&mut self) -> Read<usize> {
        usize::try_from(self.number()?).map_err(|_| TOO_LARGE)
    }

    /// A quoted string or a literal. Neither may have NUL in it.
    pub fn string(&mut self) -> Read<Vec<u8>> {
        let string = match self.eat(b'"') {
            true => self.quoted()?,
            false => self.literal()?,
        };
        match string.contains(&0) {
            true => bad("NUL in a string"),
            false => Ok(string),
        }
    }

    fn quoted(&mut self) -> Read<Vec<u8>> {
        let mut string = Vec::new();
        loop {
            match *self.rest() {
                [b'"', ..] => {
                    self.at += 1;
                    return Ok(string);
                }
                [b'\\', octet, ..] => {
                    string.push(octet);
                    self.at += 2;
                }
                [octet, ..] if octet != b'\\' => {
                    string.push(octet);
                    self.at += 1;
                }
                _ => return bad("a quoted string has no end"),
            }
        }
    }

    fn literal(&mut self) -> Read<Vec<u8>> {
        self.need(b'{')?;
        let len = self.size()?;
        self.eat(b'+');
        self.need(b'}')?;
        self.need(b'\r')?;
        self.need(b'\n')?;
        let string = self.rest().get(..len);
        let string = string.ok_or(Stop::Bad("a literal is cut off"))?;
        self.at += len;
        Ok(string.to_vec())
    }

    fn string_or(&mut self, more: &[u8]) -> Read<String> {
        match self.peek() {
            b'"' | b'{' => Ok(text(&self.string()?)),
            _ => Ok(text(
                self.run(|octet| is_atom(octet) || more.contains(&octet))?,
            )),
        }
    }

    pub fn astring(&mut self) -> Read<String> {
        self.string_or(b"]")
    }

    pub fn mailbox(&mut self) -> Read<String> {
        Ok(names::fold(&self.astring()?))
    }

    pub fn pattern(&mut self) -> Read<String> {
        self.string_or(b"]%*")
    }

    /// `(` items with spaces between `)`.
    pub fn list<T>(&mut self, mut item: impl FnMut(&mut Self) -> Read<T>) -> Read<Vec<T>> {
        self.need(b'(')?;
        let mut all = Vec::new();
        while !self.eat(b')') {
            if !all.is_empty() {
                self.space()?;
            }
            all.push(item(self)?);
        }
        Ok(all)
    }

    pub fn set(&mut self) -> Read<Set> {
        let mut all = Vec::new();
        loop {
            let from = self.place()?;
            let to = match self.eat(b':') {
                true => self.place()?,
                false => from,
            };
            all.push((from, to));
            if !self.eat(b',') {
                return Ok(all);
            }
        }
    }

    fn place(&mut self) -> Read<u32> {
        if self.eat(b'*') {
            return Ok(0);
        }
        match u32::try_from(self.number()?) {
            Ok(0) => bad("there is no number 0"),
            number => number.map_err(|_| TOO_LARGE),
        }
    }
}

fn text(octets: &[u8]) -> String {
    String::from_utf8_lossy(octets).into()
}

/// Whether a number is in the set; `last` is what `*` stands for.
pub fn is_within(set: &Set, number: u32, last: u32) -> bool {
    let place = |place| if place == 0 { last } else { place };
    set.iter().any(|&(a, b)| {
        let (a, b) = (place(a), place(b));
        (a.min(b)..=a.max(b)).contains(&number)
    })
}

pub fn quoted(string: &str) -> String {
    let mut quoted = String::from("\"");
    for letter in string.chars() {
        if letter == '"' || letter == '\\' {
            quoted.push('\\');
        }
        quoted.push(letter);
    }
    quoted + "\""
}

/// Rising numbers as a set, the adjacent ones joined.
pub fn joined(numbers: &[u32]) -> String {
    let mut ranges: Vec<(u32, u32)> = Vec::new();
    for &number in numbers {
        match ranges.last_mut() {
            Some((_, to)) if *to + 1 == number => *to = number,
            _ => ranges.push((number, number)),
        }
    }
    let range = |(from, to)| match from == to {
        true => format!("{from}"),
        false => format!("{from}:{to}"),
    };
    let all: Vec<String> = ranges.into_iter().map(range).collect();
    all.join(",")
}

/// The line as the library takes it, literals as quoted strings. None where a literal can't be one.
pub fn without_literals(command: &[u8]) -> Option<Vec<u8>> {
    let mut line = Vec::new();
    let mut reader = Reader::new(command);
    while !reader.is_end() {
        let before = reader.at;
        match reader.peek() {
            b'{' => {
                let string = reader.string().ok()?;
                let good = |&octet: &u8| (1..0x80).contains(&octet) && !b"\r\n".contains(&octet);
                if !string.iter().all(good) {
                    return None;
                }
                line.extend(quoted(&text(&string)).bytes());
            }
            b'"' if reader.string().is_ok() => line.extend(&command[before..reader.at]),
            octet => {
                line.push(octet);
                reader.at = before + 1;
            }
        }
    }
    Some(line)
}
