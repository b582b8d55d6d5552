//! Rows with questions made by random choices.

use crate::grammar::Writer;
use crate::kind::{END_OF_SOURCE, SUFFIXED_INTEGER, VALUE_TYPE_KEYWORD, WORD8};
use crate::question::{Entry, MOST_FLAGS, Question, Row};
use crate::random::Random;

/// Takes rows, and after each row the questions about it.
pub trait Sink {
    fn row(&mut self, row: Row<'_>);
    fn ask(&mut self, question: Question);
}

/// A row that is being made, used again and again.
pub struct Maker {
    pub writer: Writer,
    pub types: Vec<u8>,
    /// Where what the entry reads begins.
    pub cursor: usize,
}

impl Maker {
    pub fn new(random: Random) -> Maker {
        Maker {
            writer: Writer::new(random),
            types: Vec::new(),
            cursor: 0,
        }
    }

    fn random(&mut self) -> &mut Random {
        &mut self.writer.random
    }

    /// Begins a new row, half of the time with a few tokens before the cursor.
    pub fn begin(&mut self) {
        self.writer.kinds.clear();
        let before = match self.random().below(2) {
            0 => 0,
            _ => self.random().below(4),
        };
        self.writer.any(before);
        self.cursor = before;
    }

    /// Ends the row, sometimes with a few tokens before EndOfSource, and gives
    /// it value types.
    pub fn end(&mut self) {
        if self.random().once_in(3) {
            let after = self.random().below(4);
            self.writer.any(after);
        }
        self.writer.kinds.push(END_OF_SOURCE);
        self.put_types();
    }

    /// Value types for all tokens; or only where they are read, 0 elsewhere.
    fn put_types(&mut self) {
        let everywhere = self.random().once_in(4);
        self.types.clear();
        for place in 0..self.writer.kinds.len() {
            let kind = self.writer.kinds[place];
            let read = kind == VALUE_TYPE_KEYWORD || kind == SUFFIXED_INTEGER;
            let value_type = if everywhere || read {
                self.random().below(15) as u8
            } else {
                0
            };
            self.types.push(value_type);
        }
    }

    pub fn row(&self) -> Row<'_> {
        Row {
            kinds: &self.writer.kinds,
            types: &self.types,
        }
    }

    /// A question with as many slots as the row can need, and a few more.
    pub fn question(&mut self, entry: Entry, cursor: usize) -> Question {
        let tokens = self.writer.kinds.len();
        let random = self.random();
        let base = match random.below(4) {
            0 | 1 => 0,
            2 => random.below(10),
            _ => random.below(300),
        };
        let spare = random.below(4);
        Question {
            cursor: cursor as u32,
            base: base as u32,
            flags: random.below(MOST_FLAGS as usize + 1) as u32,
            start: random.below(tokens) as u32,
            word_kind: WORD8 + random.below(5) as u8,
            ..Question::new(entry, (base + needed(tokens) + spare) as u32)
        }
    }

    /// A row for an entry by the reading rules, perhaps damaged.
    pub fn by_rules(&mut self, entry: Entry, room: usize, damaged: bool) {
        self.begin();
        self.writer.entry(entry, room);
        if damaged {
            let from = self.cursor;
            self.writer.damage(from);
        }
        self.end();
    }

    /// A row of any tokens.
    pub fn of_any(&mut self, tokens: usize) {
        self.begin();
        self.writer.any(tokens);
        self.end();
    }

    pub fn entry(&mut self) -> Entry {
        Entry::ALL[self.random().below(5)]
    }

    /// How far inside a row may nest: mostly little.
    pub fn room(&mut self) -> usize {
        const ROOMS: [u8; 8] = [0, 1, 1, 2, 2, 3, 3, 4];
        self.random().one_of(&ROOMS).into()
    }
}

/// The most nodes that a parse of so many tokens appends: five a token.
pub fn needed(tokens: usize) -> usize {
    5 * tokens
}

/// Spoils the row or the question so that it meets one of the refusals before
/// parsing (or, rarely, none).
pub fn spoil(maker: &mut Maker, question: &mut Question) {
    let tokens = maker.row().kinds.len().min(maker.types.len());
    if tokens == 0 {
        return;
    }
    let random = &mut maker.writer.random;
    let kinds = &mut maker.writer.kinds;
    let types = &mut maker.types;
    let high = |random: &mut Random, least: usize| (least + random.below(256 - least)) as u8;
    match random.below(13) {
        0 => {
            types.pop();
        }
        1 => types.push(0),
        2 => {
            kinds.clear();
            types.clear();
        }
        3 => {
            let place = random.below(tokens);
            kinds[place] = high(random, 62);
        }
        4 => {
            let place = random.below(tokens);
            types[place] = high(random, 15);
        }
        5 => kinds[tokens - 1] = 1 + random.below(61) as u8,
        6 => question.cursor = (tokens + random.below(3)) as u32,
        7 => question.start = (tokens + random.below(3)) as u32,
        8 => question.load_slots = (question.slots + 1) - 2 * random.below(2) as u32,
        9 => question.base = question.slots + 1 + random.below(3) as u32,
        10 => question.flags = 32 + random.below(224) as u32,
        11 => question.word_kind = random.below(47) as u8,
        _ => question.word_kind = high(random, 52),
    }
}
