//! The right answer to a question: the Rust's, and document 01's where the
//! Rust panics, does not limit, or cannot be asked.

use oracle::{Buffer, Cause};

use crate::checks;
use crate::kind::END_OF_SOURCE;
use crate::levels::{self, End, Reading};
use crate::question::{MOST_OPEN, MOST_SLOTS, Question, Reply, Row};

/// The judge's own parts disagree; no answer of another parser is judged then.
#[derive(Debug)]
pub struct Doubt(pub String);

/// Answers questions about one row after another.
pub struct Judge {
    buffer: Buffer,
    kinds: Vec<u8>,
    types: Vec<u8>,
    /// The row as the Rust takes it, if it can.
    tokens: Option<oracle::Row>,
    nodes: Vec<(u8, u32)>,
}

impl Judge {
    pub fn new() -> Judge {
        Judge {
            buffer: Buffer::wide(),
            kinds: Vec::new(),
            types: Vec::new(),
            tokens: None,
            nodes: Vec::new(),
        }
    }

    /// The row that is asked about from now on.
    pub fn set_row(&mut self, row: Row<'_>) {
        self.kinds.clear();
        self.kinds.extend(row.kinds);
        self.types.clear();
        self.types.extend(row.types);
        self.tokens = oracle::Row::new(row.kinds, row.types).ok();
    }

    pub fn row(&self) -> Row<'_> {
        Row {
            kinds: &self.kinds,
            types: &self.types,
        }
    }

    /// The nodes that the latest answer appends.
    pub fn nodes(&self) -> &[(u8, u32)] {
        &self.nodes
    }

    /// The answer to a question about the row.
    pub fn answer(&mut self, question: &Question) -> Result<Reply, Doubt> {
        self.nodes.clear();
        if let Some(refusal) = checks::refusal(self.row(), question) {
            return Ok(refusal);
        }
        let reading = levels::read(question.entry, &self.kinds, question.cursor, MOST_OPEN);
        let reply = if reading.end == End::TooDeep {
            self.cut(question, reading.cursor)?
        } else {
            let reply = self.ask(question)?;
            self.agree(question, reading, reply)?;
            in_document_01(reply)?
        };
        if !self.buffer.base_is_unchanged() {
            return Err(doubt("the Rust changed a node below the base"));
        }
        self.nodes.extend(self.buffer.appended());
        Ok(reply)
    }

    /// The Rust's answer; where it panics since the last member has no comma,
    /// to the row with that comma.
    fn ask(&mut self, question: &Question) -> Result<Reply, Doubt> {
        let tokens = self.tokens.as_ref().ok_or_else(|| doubt("no tokens"))?;
        let reply = ask(tokens, question, &mut self.buffer)?;
        let asked = asked(question);
        let Some(place) = oracle::dropped_comma(&self.kinds, &asked, reply) else {
            return Ok(reply);
        };
        oracle::ask_with_comma(&self.kinds, &self.types, place, &asked, &mut self.buffer)
            .map_err(unasked)
    }

    /// What the Rust alone says, in words: for people, not for comparing.
    pub fn rust_alone(&mut self, question: &Question) -> String {
        let Some(tokens) = &self.tokens else {
            return "the row cannot be given to it".into();
        };
        match ask(tokens, question, &mut self.buffer) {
            Ok(Reply::Panicked {
                cause,
                cursor,
                count,
            }) => format!("panics: {cause:?}, cursor {cursor}, count {count}"),
            Ok(reply) => reply.to_string(),
            Err(_) => "this cannot be given to it".into(),
        }
    }

    /// The answer where one expression or inner type too many is to begin at
    /// `place`. Up to there the Rust is asked, with EndOfSource at that place:
    /// it must refuse just that token, as no start of a primary or of a type,
    /// having appended what was to be appended; or its slots were used up
    /// before.
    fn cut(&mut self, question: &Question, place: u32) -> Result<Reply, Doubt> {
        self.nests_too_deep(question)?;
        let end = place as usize;
        let kinds = [&self.kinds[..end], &[END_OF_SOURCE]].concat();
        let types = [&self.types[..end], &[0]].concat();
        let tokens = oracle::Row::new(&kinds, &types).map_err(|_| doubt("no cut row"))?;
        // The start goes into a node that is not reached, and may be cut off.
        let question = Question {
            start: 0,
            ..*question
        };
        match in_document_01(ask(&tokens, &question, &mut self.buffer)?)? {
            Reply::Refused {
                number: 20 | 21,
                start,
                count,
                ..
            } if start == place => Ok(Reply::Refused {
                number: 34,
                start,
                end: start,
                cursor: start,
                count,
            }),
            full @ Reply::Refused { number: 33, .. } => Ok(full),
            other => Err(Doubt(format!(
                "one too many begins at {place}, but the Rust, cut there: {other}"
            ))),
        }
    }

    /// If the Rust accepts the whole row, its nodes must show a nesting that is
    /// too deep.
    fn nests_too_deep(&mut self, question: &Question) -> Result<(), Doubt> {
        let tokens = self.tokens.as_ref().ok_or_else(|| doubt("no tokens"))?;
        let question = question.with_slots(MOST_SLOTS);
        let reply = ask(tokens, &question, &mut self.buffer)?;
        match oracle::nesting(question.entry, reply, &self.buffer) {
            Some(deepest) if deepest <= MOST_OPEN => {
                Err(Doubt(format!("the Rust nests {deepest} deep")))
            }
            _ => Ok(()),
        }
    }

    /// The reading of levels and the Rust must end alike.
    fn agree(&self, q: &Question, reading: Reading, rust: Reply) -> Result<(), Doubt> {
        let (end, cursor) = match rust {
            Reply::Accepted { cursor, .. } => (End::Accepted, cursor),
            Reply::Refused { cursor, .. } => (End::Refused, cursor),
            // It did not come to an end.
            Reply::Panicked {
                cause: Cause::Slots,
                ..
            } => return Ok(()),
            Reply::Panicked { cursor, .. } => (End::Refused, cursor),
        };
        let deepest = oracle::nesting(q.entry, rust, &self.buffer).unwrap_or(reading.deepest);
        let rust = Reading {
            end,
            cursor,
            deepest,
        };
        if rust == reading {
            Ok(())
        } else {
            Err(Doubt(format!("levels {reading:?}, the Rust {rust:?}")))
        }
    }
}

impl Default for Judge {
    fn default() -> Judge {
        Judge::new()
    }
}

fn doubt(text: &str) -> Doubt {
    Doubt(text.into())
}

/// The Rust's own answer to a question that passed the checks.
fn ask(tokens: &oracle::Row, q: &Question, buffer: &mut Buffer) -> Result<Reply, Doubt> {
    tokens.ask(&asked(q), buffer).map_err(unasked)
}

/// A question as the oracle takes it.
fn asked(q: &Question) -> oracle::Question {
    let declares = q.declares();
    oracle::Question {
        entry: q.entry,
        cursor: q.cursor,
        base: q.base,
        slots: Some(q.slots),
        flags: if declares {
            u8::try_from(q.flags).unwrap_or(u8::MAX)
        } else {
            0
        },
        start: if declares { q.start } else { 0 },
        word_kind: q.word_kind,
    }
}

fn unasked(unaskable: oracle::Unaskable) -> Doubt {
    Doubt(format!("the oracle: {unaskable:?}"))
}

/// Where the Rust panics, document 01 has 33 and 25.
fn in_document_01(reply: Reply) -> Result<Reply, Doubt> {
    reply
        .in_document_01()
        .ok_or_else(|| doubt("the Rust panicked for no known cause"))
}
