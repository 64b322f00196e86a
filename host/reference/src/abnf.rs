//! A second reading of the command grammar, kept apart from `command`.
//!
//! The rules stand here as data, and one small matcher runs them all. A slip in
//! the hand-written reader and a slip in this table are unlikely to be the same,
//! so lines on which the two differ show a fault in one of them.

use std::sync::OnceLock;

/// Rule names and their bodies, the whole line first.
///
/// The notation is ABNF with two changes: words stand in single quotes (any
/// case matches), and `<n-m>` is a decimal number from n to m. Literals are
/// left out everywhere, since a line here has no continuation.
const TABLE: &[(&str, &str)] = &[
    ("line", "tag SP command"),
    ("tag", "1*32tag-octet"),
    ("command", "notify / esearch"),
    // NOTIFY. The selected groups' further limits are not grammar: they are
    // tried after it, so every group may carry fetch attributes here.
    ("notify", "'NOTIFY' SP (notify-set / notify-none)"),
    ("notify-set", "'SET' [status-indicator] SP event-groups"),
    ("notify-none", "'NONE'"),
    ("status-indicator", "SP 'STATUS'"),
    ("event-groups", "event-group *(SP event-group)"),
    ("event-group", "'(' filter-mailboxes SP events ')'"),
    (
        "filter-mailboxes",
        "filter-mailboxes-selected / filter-mailboxes-other",
    ),
    (
        "filter-mailboxes-selected",
        "'selected' / 'selected-delayed'",
    ),
    (
        "filter-mailboxes-other",
        "'inboxes' / 'personal' / 'subscribed' /
         'subtree' SP one-or-more-mailbox /
         'mailboxes' SP one-or-more-mailbox",
    ),
    ("one-or-more-mailbox", "mailbox / many-mailboxes"),
    ("many-mailboxes", "'(' mailbox *(SP mailbox) ')'"),
    ("mailbox", "astring"),
    ("events", "'(' event *(SP event) ')' / 'NONE'"),
    (
        "event",
        "message-event / mailbox-event / user-event / event-ext",
    ),
    (
        "message-event",
        "'MessageNew' [SP '(' fetch-att *(SP fetch-att) ')'] /
         'MessageExpunge' / 'FlagChange' / 'AnnotationChange'",
    ),
    (
        "mailbox-event",
        "'MailboxName' / 'SubscriptionChange' / 'MailboxMetadataChange'",
    ),
    ("user-event", "'ServerMetadataChange'"),
    ("event-ext", "atom"),
    // Fetch attributes, those of the base protocol only.
    ("fetch-att", "fetch-plain / fetch-section"),
    (
        "fetch-plain",
        "'ENVELOPE' / 'FLAGS' / 'INTERNALDATE' / 'UID' /
         'RFC822' ['.HEADER' / '.SIZE' / '.TEXT'] / 'BODY' ['STRUCTURE']",
    ),
    ("fetch-section", "'BODY' ['.PEEK'] section [partial]"),
    ("partial", "'<' number '.' nz-number '>'"),
    ("section", "'[' [section-spec] ']'"),
    (
        "section-spec",
        "section-msgtext / section-part ['.' section-text]",
    ),
    (
        "section-msgtext",
        "'HEADER' / 'HEADER.FIELDS' ['.NOT'] SP header-list / 'TEXT'",
    ),
    ("section-part", "nz-number *('.' nz-number)"),
    ("section-text", "section-msgtext / 'MIME'"),
    (
        "header-list",
        "'(' header-fld-name *(SP header-fld-name) ')'",
    ),
    ("header-fld-name", "astring"),
    // ESEARCH. The delayed filter stays in: its BAD is a later reason. Scope
    // options have no rule, so that none can match.
    (
        "esearch",
        "'ESEARCH' [SP esearch-source-opts] [SP search-return-opts]
         SP search-program",
    ),
    ("esearch-source-opts", "'IN' SP '(' source-mbox ')'"),
    ("source-mbox", "source *(SP source)"),
    (
        "source",
        "filter-mailboxes / 'subtree-one' SP one-or-more-mailbox",
    ),
    ("search-return-opts", "'RETURN' SP '(' [opts-nxac] ')'"),
    // The letters name the options still free: miN, maX, All, Count. Each rule
    // takes one away, and so none comes twice.
    (
        "opts-nxac",
        "'MIN' [SP opts-xac] / 'MAX' [SP opts-nac] /
         'ALL' [SP opts-nxc] / 'COUNT' [SP opts-nxa]",
    ),
    (
        "opts-xac",
        "'MAX' [SP opts-ac] / 'ALL' [SP opts-xc] / 'COUNT' [SP opts-xa]",
    ),
    (
        "opts-nac",
        "'MIN' [SP opts-ac] / 'ALL' [SP opts-nc] / 'COUNT' [SP opts-na]",
    ),
    (
        "opts-nxc",
        "'MIN' [SP opts-xc] / 'MAX' [SP opts-nc] / 'COUNT' [SP opts-nx]",
    ),
    (
        "opts-nxa",
        "'MIN' [SP opts-xa] / 'MAX' [SP opts-na] / 'ALL' [SP opts-nx]",
    ),
    ("opts-nx", "'MIN' [SP 'MAX'] / 'MAX' [SP 'MIN']"),
    ("opts-na", "'MIN' [SP 'ALL'] / 'ALL' [SP 'MIN']"),
    ("opts-nc", "'MIN' [SP 'COUNT'] / 'COUNT' [SP 'MIN']"),
    ("opts-xa", "'MAX' [SP 'ALL'] / 'ALL' [SP 'MAX']"),
    ("opts-xc", "'MAX' [SP 'COUNT'] / 'COUNT' [SP 'MAX']"),
    ("opts-ac", "'ALL' [SP 'COUNT'] / 'COUNT' [SP 'ALL']"),
    ("search-program", "['CHARSET' SP charset SP] search-keys"),
    ("charset", "atom / quoted"),
    ("search-keys", "search-key *(SP search-key)"),
    // Keys, in families so that a random walk nests often enough.
    (
        "search-key",
        "key-flag / key-argument / key-set / key-nest / key-recent",
    ),
    (
        "key-flag",
        "'ALL' / ['UN'] ('ANSWERED' / 'DELETED' / 'DRAFT' / 'FLAGGED' / 'SEEN')",
    ),
    ("key-recent", "'NEW' / 'OLD' / 'RECENT'"),
    ("key-set", "['UID' SP] sequence-set"),
    (
        "key-nest",
        "'NOT' SP search-key / 'OR' SP search-key SP search-key /
         '(' search-keys ')'",
    ),
    (
        "key-argument",
        "('LARGER' / 'SMALLER') SP number /
         ('BCC' / 'BODY' / 'CC' / 'FROM' / 'SUBJECT' / 'TEXT' / 'TO') SP astring /
         ['UN'] 'KEYWORD' SP atom /
         ['SENT'] ('BEFORE' / 'ON' / 'SINCE') SP date /
         'HEADER' SP header-fld-name SP astring",
    ),
    ("sequence-set", "set-part *(',' set-part)"),
    ("set-part", "seq-number [':' seq-number]"),
    ("seq-number", "nz-number / '*'"),
    ("date", "date-text / DQUOTE date-text DQUOTE"),
    ("date-text", "1*2DIGIT '-' date-month '-' 4DIGIT"),
    (
        "date-month",
        "'Jan' / 'Feb' / 'Mar' / 'Apr' / 'May' / 'Jun' /
         'Jul' / 'Aug' / 'Sep' / 'Oct' / 'Nov' / 'Dec'",
    ),
    // Leaves. Only astrings and tags have the closing bracket, and only tags
    // lack the plus sign.
    ("number", "<0-4294967295>"),
    ("nz-number", "<1-4294967295>"),
    ("astring", "1*astring-octet / quoted"),
    ("atom", "1*atom-octet"),
    ("quoted", "DQUOTE *quoted-octet DQUOTE"),
    ("quoted-octet", "plain-octet / %x5C (%x22 / %x5C)"),
    (
        "plain-octet",
        "%x01-09 / %x0B-0C / %x0E-21 / %x23-5B / %x5D-7F",
    ),
    (
        "atom-octet",
        "%x21 / %x23-24 / %x26-27 / %x2B-5B / %x5E-7A / %x7C-7E",
    ),
    ("astring-octet", "atom-octet / %x5D"),
    (
        "tag-octet",
        "%x21 / %x23-24 / %x26-27 / %x2C-5B / %x5D-7A / %x7C-7E",
    ),
    ("DIGIT", "%x30-39"),
    ("DQUOTE", "%x22"),
    ("SP", "%x20"),
];

/// A rule's body once read.
pub enum Node {
    /// One octet of a range, both ends in it.
    Octet(u8, u8),
    /// A word in any case.
    Word(&'static str),
    /// A decimal number of a range. Where 0 is out of it, so is a leading zero.
    Number(u64, u64),
    /// Another rule, by its place in the table.
    Rule(usize),
    Row(Vec<Node>),
    Choice(Vec<Node>),
    /// At least so often, at most so often.
    Times(usize, usize, Box<Node>),
}

/// No upper bound of a repetition.
pub const UNBOUNDED: usize = usize::MAX;

/// The table read once: bodies for whoever walks them, states for the matcher.
pub struct Grammar {
    pub rules: Vec<Node>,
    /// The length of each rule's shortest line.
    pub shortest: Vec<usize>,
    states: Vec<State>,
    starts: Vec<usize>,
}

impl Grammar {
    fn read() -> Grammar {
        let rules: Vec<Node> = TABLE.iter().map(|(_, body)| read_body(body)).collect();
        let shortest = shortest_of_all(&rules);
        // The matcher needs this: an empty rule could end where it begins,
        // before all that wait for it are known.
        assert!(shortest.iter().all(|n| (1..UNBOUNDED).contains(n)));
        let mut builder = Builder {
            rules: &rules,
            states: Vec::new(),
        };
        let starts = (0..rules.len()).map(|r| builder.rule(r)).collect();
        let states = builder.states;
        Grammar {
            rules,
            shortest,
            states,
            starts,
        }
    }

    /// The length of the shortest line of this body.
    pub fn shortest(&self, node: &Node) -> usize {
        shortest(node, &self.shortest)
    }
}

/// The one grammar of this program.
pub fn grammar() -> &'static Grammar {
    static GRAMMAR: OnceLock<Grammar> = OnceLock::new();
    GRAMMAR.get_or_init(Grammar::read)
}

fn shortest(node: &Node, rules: &[usize]) -> usize {
    let of = |n: &Node| shortest(n, rules);
    match node {
        Node::Octet(..) | Node::Number(..) => 1,
        Node::Word(word) => word.len(),
        Node::Rule(rule) => rules[*rule],
        Node::Row(parts) => parts.iter().map(of).fold(0, usize::saturating_add),
        Node::Choice(parts) => parts.iter().map(of).min().unwrap_or(UNBOUNDED),
        Node::Times(least, _, part) => least.saturating_mul(of(part)),
    }
}

// Rules refer to each other both ways, so the lengths are found by repeating
// until none falls any more.
fn shortest_of_all(rules: &[Node]) -> Vec<usize> {
    let mut known = vec![UNBOUNDED; rules.len()];
    loop {
        let next: Vec<usize> = rules.iter().map(|r| shortest(r, &known)).collect();
        if next == known {
            return known;
        }
        known = next;
    }
}

// Reading the notation. The table is ours, so a mistake in it is a panic.

fn read_body(body: &'static str) -> Node {
    let mut reader = Reader { rest: body };
    let node = reader.choice();
    assert!(reader.rest.is_empty(), "left over: {}", reader.rest);
    node
}

struct Reader {
    rest: &'static str,
}

impl Reader {
    fn choice(&mut self) -> Node {
        let mut parts = vec![self.row()];
        while self.eat("/") {
            parts.push(self.row());
        }
        single_or(parts, Node::Choice)
    }

    fn row(&mut self) -> Node {
        let mut parts = vec![self.repeated()];
        while !self.rest.is_empty() && !self.rest.starts_with(['/', ')', ']']) {
            parts.push(self.repeated());
        }
        single_or(parts, Node::Row)
    }

    fn repeated(&mut self) -> Node {
        let least = self.count();
        let most = if self.eat("*") {
            self.count().unwrap_or(UNBOUNDED)
        } else {
            match least {
                Some(exactly) => exactly,
                None => return self.element(),
            }
        };
        Node::Times(least.unwrap_or(0), most, Box::new(self.element()))
    }

    fn element(&mut self) -> Node {
        if self.eat("(") {
            return self.closed(")");
        }
        if self.eat("[") {
            return Node::Times(0, 1, Box::new(self.closed("]")));
        }
        if self.eat("'") {
            return Node::Word(self.until("'"));
        }
        if self.eat("%x") {
            return octet_range(self.take(|c| c.is_ascii_hexdigit() || c == '-'));
        }
        if self.eat("<") {
            return number_range(self.until(">"));
        }
        let name = self.take(|c| c.is_ascii_alphanumeric() || c == '-');
        Node::Rule(place_of(name))
    }

    fn closed(&mut self, by: &str) -> Node {
        let inside = self.choice();
        assert!(self.eat(by), "{by} expected: {}", self.rest);
        inside
    }

    fn count(&mut self) -> Option<usize> {
        self.take(|c| c.is_ascii_digit()).parse().ok()
    }

    fn eat(&mut self, mark: &str) -> bool {
        let after = self.rest.strip_prefix(mark);
        self.rest = after.map_or(self.rest, str::trim_start);
        after.is_some()
    }

    fn until(&mut self, mark: &str) -> &'static str {
        let (inside, after) = self.rest.split_once(mark).expect(mark);
        self.rest = after.trim_start();
        inside
    }

    fn take(&mut self, wanted: impl Fn(char) -> bool) -> &'static str {
        let end = self.rest.find(|c| !wanted(c)).unwrap_or(self.rest.len());
        let (taken, after) = self.rest.split_at(end);
        self.rest = after.trim_start();
        taken
    }
}

fn single_or(mut parts: Vec<Node>, many: fn(Vec<Node>) -> Node) -> Node {
    if parts.len() == 1 {
        parts.remove(0)
    } else {
        many(parts)
    }
}

fn octet_range(text: &str) -> Node {
    let (first, last) = text.split_once('-').unwrap_or((text, text));
    let octet = |t| u8::from_str_radix(t, 16).expect("octet");
    Node::Octet(octet(first), octet(last))
}

fn number_range(text: &str) -> Node {
    let (least, most) = text.split_once('-').expect("range");
    let number = |t: &str| t.parse().expect("number");
    Node::Number(number(least), number(most))
}

fn place_of(name: &str) -> usize {
    let place = TABLE.iter().position(|(n, _)| *n == name);
    place.unwrap_or_else(|| panic!("no rule {name}"))
}

// From bodies to states: each state names what comes next, and a rule's last
// state says that it is done.

type Octets = [bool; 256];

enum State {
    One(Box<Octets>, usize),
    Number(u64, u64, usize),
    Call(usize, usize),
    Either(Vec<usize>),
    Done(usize),
}

struct Builder<'a> {
    rules: &'a [Node],
    states: Vec<State>,
}

impl Builder<'_> {
    fn add(&mut self, state: State) -> usize {
        self.states.push(state);
        self.states.len() - 1
    }

    fn rule(&mut self, rule: usize) -> usize {
        let done = self.add(State::Done(rule));
        let rules = self.rules;
        self.node(&rules[rule], done)
    }

    /// The state that begins this body and goes on to `next`.
    fn node(&mut self, node: &Node, next: usize) -> usize {
        if let Some(octets) = octets_of(node, self.rules) {
            return self.add(State::One(Box::new(octets), next));
        }
        match node {
            Node::Octet(..) => unreachable!("a set of octets"),
            Node::Word(word) => word.bytes().rev().fold(next, |n, c| self.letter(c, n)),
            Node::Number(least, most) => self.add(State::Number(*least, *most, next)),
            Node::Rule(rule) => self.add(State::Call(*rule, next)),
            Node::Row(parts) => parts.iter().rev().fold(next, |n, p| self.node(p, n)),
            Node::Choice(parts) => {
                let ways = parts.iter().map(|p| self.node(p, next)).collect();
                self.add(State::Either(ways))
            }
            Node::Times(least, most, part) => {
                let further = self.further(*least, *most, part, next);
                (0..*least).fold(further, |n, _| self.node(part, n))
            }
        }
    }

    /// The repetitions beyond the least number.
    fn further(&mut self, least: usize, most: usize, part: &Node, next: usize) -> usize {
        if most == UNBOUNDED {
            let again = self.add(State::Either(Vec::new()));
            let once = self.node(part, again);
            self.states[again] = State::Either(vec![once, next]);
            return again;
        }
        (least..most).fold(next, |after, _| {
            let once = self.node(part, after);
            self.add(State::Either(vec![once, next]))
        })
    }

    fn letter(&mut self, letter: u8, next: usize) -> usize {
        let mut octets = [false; 256];
        octets[letter.to_ascii_lowercase() as usize] = true;
        octets[letter.to_ascii_uppercase() as usize] = true;
        self.add(State::One(Box::new(octets), next))
    }
}

// A body that is a choice of single octets, as one set: it spares the matcher a
// call for every octet of a name.
fn octets_of(node: &Node, rules: &[Node]) -> Option<Octets> {
    match node {
        Node::Octet(first, last) => {
            let mut octets = [false; 256];
            octets[*first as usize..=*last as usize].fill(true);
            Some(octets)
        }
        Node::Rule(rule) => octets_of(&rules[*rule], rules),
        Node::Choice(parts) => {
            let mut all = [false; 256];
            for part in parts {
                let octets = octets_of(part, rules)?;
                all.iter_mut().zip(octets).for_each(|(a, o)| *a |= o);
            }
            Some(all)
        }
        _ => None,
    }
}

// Matching. All readings of the line are followed side by side, one column for
// each place in it; nothing is recursive, so nesting costs no stack.

/// A rule entered at `origin` that has come to `state`.
#[derive(Clone, Copy, PartialEq)]
struct Item {
    state: usize,
    origin: usize,
}

/// What is true at one place: the items there, and those that wait for a rule
/// entered there.
#[derive(Clone, Default)]
struct Column {
    items: Vec<Item>,
    waiting: Vec<(usize, Item)>,
}

struct Chart<'a> {
    grammar: &'a Grammar,
    line: &'a [u8],
    columns: Vec<Column>,
}

impl Chart<'_> {
    // Each item enters a column once, which keeps the work polynomial.
    fn add(&mut self, place: usize, state: usize, origin: usize) {
        let item = Item { state, origin };
        let items = &mut self.columns[place].items;
        if !items.contains(&item) {
            items.push(item);
        }
    }

    fn run(&mut self) {
        for place in 0..self.columns.len() {
            let mut next = 0;
            while let Some(&item) = self.columns[place].items.get(next) {
                self.step(place, item);
                next += 1;
            }
        }
    }

    fn step(&mut self, place: usize, item: Item) {
        let grammar = self.grammar;
        match &grammar.states[item.state] {
            State::One(octets, next) => {
                if self.line.get(place).is_some_and(|o| octets[*o as usize]) {
                    self.add(place + 1, *next, item.origin);
                }
            }
            State::Number(least, most, next) => {
                for end in number_ends(&self.line[place..], *least, *most) {
                    self.add(place + end, *next, item.origin);
                }
            }
            State::Either(ways) => {
                for way in ways {
                    self.add(place, *way, item.origin);
                }
            }
            State::Call(rule, next) => {
                let waiter = Item {
                    state: *next,
                    origin: item.origin,
                };
                self.columns[place].waiting.push((*rule, waiter));
                self.add(place, grammar.starts[*rule], place);
            }
            State::Done(rule) => self.finish(place, *rule, item.origin),
        }
    }

    // A rule is never empty, so its column of origin is complete by now.
    fn finish(&mut self, place: usize, rule: usize, origin: usize) {
        for at in 0..self.columns[origin].waiting.len() {
            let (wanted, waiter) = self.columns[origin].waiting[at];
            if wanted == rule {
                self.add(place, waiter.state, waiter.origin);
            }
        }
    }

    fn whole_line_done(&self) -> bool {
        let last = self.columns.last();
        last.is_some_and(|c| c.items.iter().any(|i| self.is_line(i)))
    }

    fn is_line(&self, item: &Item) -> bool {
        item.origin == 0 && matches!(self.grammar.states[item.state], State::Done(0))
    }
}

// Every length at which the digits so far make a number of the range.
fn number_ends(rest: &[u8], least: u64, most: u64) -> Vec<usize> {
    let mut ends = Vec::new();
    let mut value = 0u64;
    for (at, octet) in rest.iter().enumerate() {
        let leading_zero = at == 0 && *octet == b'0' && least > 0;
        if !octet.is_ascii_digit() || leading_zero {
            break;
        }
        value = value * 10 + u64::from(octet - b'0');
        if value > most {
            break;
        }
        if value >= least {
            ends.push(at + 1);
        }
    }
    ends
}

/// Whether a command line, tag and all, fits the grammar. The later reasons for
/// BAD (which groups, which events together, what is selected) are not tried.
pub fn is_grammatical(line: &[u8]) -> bool {
    let grammar = grammar();
    let mut chart = Chart {
        grammar,
        line,
        columns: vec![Column::default(); line.len() + 1],
    };
    chart.add(0, grammar.starts[0], 0);
    chart.run();
    chart.whole_line_done()
}
