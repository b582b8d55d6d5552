//! Asks a parser and the judge the same question and compares the answers.

use std::fmt::Write as _;

use crate::columns::{Changed, Columns};
use crate::judge::{Doubt, Judge};
use crate::question::{Line, Numbers, Question, Reply, Row};
use crate::rows::Sink;
use crate::tally::Tally;

/// A parser with document 01's five entries.
pub trait Parser {
    /// The six numbers of the reply, as `Reply::numbers` has them.
    fn parse(
        &mut self,
        row: Row<'_>,
        question: &Question,
        node_kinds: &mut [u8],
        node_loads: &mut [u32],
    ) -> [u32; 6];
}

#[derive(Debug, Clone, PartialEq, Eq)]
pub enum Difference {
    Reply,
    /// The kind or the load of an appended node.
    Node(u32),
    /// A slot that was not to be written.
    Slot(Changed),
    /// The judge has no answer.
    Doubt(String),
}

/// A question with different answers, in words.
pub struct Finding(pub String);

/// So many differences are told; beyond, they are only counted.
const TOLD: usize = 3;

/// So many smaller rows are tried for a difference that is told.
const TRIES: u32 = 2_000;

/// So many of the nodes are told on each side.
const NODES_TOLD: usize = 40;

pub struct Comparer<P> {
    parser: P,
    judge: Judge,
    columns: Columns,
    pub tally: Tally,
    pub findings: Vec<Finding>,
}

/// The answers to one question.
struct Answers {
    expected: Result<Reply, Doubt>,
    found: [u32; 6],
    difference: Option<Difference>,
}

impl<P: Parser> Sink for Comparer<P> {
    fn row(&mut self, row: Row<'_>) {
        self.judge.set_row(row);
        self.tally.rows += 1;
    }

    fn ask(&mut self, question: Question) {
        let answers = self.answers(&question);
        let number = answers.expected.as_ref().map_or(0, Reply::number);
        self.tally.count(number, self.judge.nodes().len());
        if answers.difference.is_none() {
            let nodes = self.judge.nodes().len();
            self.columns.restore(&question, nodes);
            return;
        }
        self.tally.differences += 1;
        if self.findings.len() < TOLD {
            self.tell(question);
        }
        self.columns.restore_all();
    }
}

impl<P: Parser> Comparer<P> {
    pub fn new(parser: P) -> Comparer<P> {
        Comparer {
            parser,
            judge: Judge::new(),
            columns: Columns::new(),
            tally: Tally::new(),
            findings: Vec::new(),
        }
    }

    /// Both answers to a question about the present row. The columns keep what
    /// the parser wrote.
    fn answers(&mut self, question: &Question) -> Answers {
        let expected = self.judge.answer(question);
        let (kinds, loads) = self.columns.lend(question);
        let found = self.parser.parse(self.judge.row(), question, kinds, loads);
        let difference = match &expected {
            Ok(reply) => self.difference(question, reply, found),
            Err(Doubt(text)) => Some(Difference::Doubt(text.clone())),
        };
        Answers {
            expected,
            found,
            difference,
        }
    }

    /// The reply, each appended node, and every other slot.
    fn difference(&self, q: &Question, expected: &Reply, found: [u32; 6]) -> Option<Difference> {
        if found != expected.numbers() {
            return Some(Difference::Reply);
        }
        let nodes = self.judge.nodes();
        for (slot, node) in (q.base..).zip(nodes) {
            if self.columns.node(slot) != *node {
                return Some(Difference::Node(slot));
            }
        }
        let changed = self.columns.changed(q, nodes.len());
        changed.map(Difference::Slot)
    }

    /// Makes a difference as small as it gets and puts it into words.
    fn tell(&mut self, question: Question) {
        let whole = Small {
            kinds: self.judge.row().kinds.to_vec(),
            types: self.judge.row().types.to_vec(),
            question,
        };
        let mut small = whole.clone();
        self.shrink(&mut small);
        let mut text = self.in_words(&small);
        if small != whole {
            writeln!(text, "  made smaller from {}", whole.line()).expect("a string");
        }
        self.findings.push(Finding(text));
        self.judge.set_row(whole.row());
    }

    fn differs(&mut self, small: &Small) -> bool {
        self.judge.set_row(small.row());
        self.columns.restore_all();
        self.answers(&small.question).difference.is_some()
    }

    /// Takes away what the difference does not need: first of the question,
    /// then of the row, longer stretches of tokens before shorter ones.
    fn shrink(&mut self, small: &mut Small) {
        let mut tries = TRIES;
        for step in small.simpler() {
            self.step(small, step(small), &mut tries);
        }
        let mut length = small.kinds.len();
        while length > 0 {
            let tokens = small.kinds.len();
            let mut place = 0;
            while place < small.kinds.len() && tries > 0 {
                let shorter = small.without(place, length);
                if !self.step(small, shorter, &mut tries) {
                    place += length;
                }
            }
            // Single tokens are tried until none can go.
            let again = length == 1 && small.kinds.len() < tokens;
            length = if again { 1 } else { length / 2 };
        }
    }

    /// Takes a step if the difference stays.
    fn step(&mut self, small: &mut Small, step: Small, tries: &mut u32) -> bool {
        *tries = tries.saturating_sub(1);
        let stays = step != *small && self.differs(&step);
        if stays {
            *small = step;
        }
        stays
    }

    fn in_words(&mut self, small: &Small) -> String {
        self.columns.restore_all();
        self.judge.set_row(small.row());
        let answers = self.answers(&small.question);
        let mut text = match answers.difference {
            Some(difference) => format!("{difference:?}\n"),
            None => "none\n".into(),
        };
        writeln!(text, "  question {}", small.line()).expect("a string");
        match answers.expected {
            Ok(reply) => write!(text, "  expected {reply} :").expect("a string"),
            Err(Doubt(doubt)) => write!(text, "  expected {doubt}").expect("a string"),
        }
        for (kind, load) in self.judge.nodes().iter().take(NODES_TOLD) {
            write!(text, " {kind} {load}").expect("a string");
        }
        write!(text, "\n  found    {} :", Numbers(answers.found)).expect("a string");
        for (kind, load) in self.found_nodes(&small.question, answers.found) {
            write!(text, " {kind} {load}").expect("a string");
        }
        let alone = self.judge.rust_alone(&small.question);
        writeln!(text, "\n  the Rust {alone}").expect("a string");
        text
    }

    /// Both answers to one question, in words.
    pub fn show(&mut self, row: Row<'_>, question: Question) -> String {
        let small = Small {
            kinds: row.kinds.to_vec(),
            types: row.types.to_vec(),
            question,
        };
        self.in_words(&small)
    }

    /// The nodes up to the count that the parser replied.
    fn found_nodes(&self, q: &Question, found: [u32; 6]) -> Vec<(u8, u32)> {
        let count = if found[0] == 0 { found[3] } else { found[5] };
        let end = count.min(q.slots).min(q.load_slots);
        (q.base..end)
            .take(NODES_TOLD)
            .map(|slot| self.columns.node(slot))
            .collect()
    }
}

/// A row with a question that is being made smaller.
#[derive(Clone, PartialEq, Eq)]
struct Small {
    kinds: Vec<u8>,
    types: Vec<u8>,
    question: Question,
}

impl Small {
    fn row(&self) -> Row<'_> {
        Row {
            kinds: &self.kinds,
            types: &self.types,
        }
    }

    fn line(&self) -> String {
        let slots = self.question.load_slots;
        let line = Line(self.row(), self.question);
        if slots == self.question.slots {
            line.to_string()
        } else {
            format!("{line} (of loads {slots})")
        }
    }

    /// What can be made simpler besides the row's length.
    fn simpler(&self) -> [fn(&Small) -> Small; 4] {
        [
            |small| small.with(|q| q.base = 0),
            |small| small.with(|q| q.flags = 0),
            |small| small.with(|q| q.start = 0),
            |small| Small {
                types: vec![0; small.types.len()],
                ..small.clone()
            },
        ]
    }

    fn with(&self, change: fn(&mut Question)) -> Small {
        let mut step = self.clone();
        change(&mut step.question);
        step
    }

    /// The row without some tokens; the cursor stays at its token.
    fn without(&self, place: usize, length: usize) -> Small {
        let mut step = self.clone();
        step.kinds
            .drain(place..(place + length).min(self.kinds.len()));
        let types = self.types.len();
        step.types
            .drain(place.min(types)..(place + length).min(types));
        let cursor = self.question.cursor as usize;
        let before = cursor.saturating_sub(place).min(length);
        step.question.cursor = (cursor - before) as u32;
        step
    }
}
