//! The families of rows, each in parts that can be run in any order.

use crate::deep::{self, Choice};
use crate::exhaustive::{self, Cursors, Token};
use crate::limits;
use crate::question::{Entry, MOST_OPEN, MOST_SLOTS, Question};
use crate::random::Random;
use crate::rows::{Maker, Sink, needed, spoil};

#[derive(Debug, Clone, Copy, PartialEq, Eq)]
pub enum Family {
    /// By the reading rules.
    Rules,
    /// By the reading rules, then damaged.
    Damaged,
    /// Any tokens.
    Any,
    /// Structs and words by the rules whose last member has no comma, some
    /// damaged.
    Commas,
    /// About as deep as rows may nest.
    Deep,
    /// By the rules, with many numbers of slots.
    Slots,
    /// Refused before parsing.
    Inputs,
    /// Every row of up to three tokens, from every cursor.
    Short,
    /// Every row of four tokens, from the first.
    Four,
    /// Every row of up to three tokens of a few kinds, with every value type.
    ValueTypes,
    /// Every row of up to five tokens of a dozen kinds, for three dozens, from
    /// every cursor.
    Dozens,
    /// Every row of six tokens of these dozens, from the first.
    Six,
    /// Both sides of every limit.
    Limits,
}

impl Family {
    pub const ALL: [Family; 13] = [
        Family::Limits,
        Family::Short,
        Family::Four,
        Family::ValueTypes,
        Family::Dozens,
        Family::Six,
        Family::Rules,
        Family::Damaged,
        Family::Any,
        Family::Slots,
        Family::Commas,
        Family::Deep,
        Family::Inputs,
    ];

    pub fn name(self) -> &'static str {
        match self {
            Family::Rules => "rules",
            Family::Damaged => "damaged",
            Family::Any => "any",
            Family::Commas => "commas",
            Family::Deep => "deep",
            Family::Slots => "slots",
            Family::Inputs => "inputs",
            Family::Short => "short",
            Family::Four => "four",
            Family::ValueTypes => "value-types",
            Family::Dozens => "dozens",
            Family::Six => "six",
            Family::Limits => "limits",
        }
    }

    /// Of a thousand random rows, how many are of this family; 0 where the
    /// rows are fixed.
    fn share(self) -> u64 {
        match self {
            Family::Rules => 340,
            Family::Damaged => 460,
            Family::Any => 100,
            Family::Slots => 15,
            Family::Commas => 40,
            Family::Deep => 5,
            Family::Inputs => 40,
            _ => 0,
        }
    }

    /// The parts of the family, where so many rows are random.
    pub fn parts(self, random_rows: u64) -> Vec<Part> {
        let numbers = match self {
            Family::Limits => limits::GROUPS.len() as u64,
            Family::Short | Family::Four => exhaustive::all_kinds().len() as u64,
            Family::ValueTypes => exhaustive::value_types().len() as u64,
            Family::Dozens | Family::Six => 3 * 12,
            _ => {
                let rows = random_rows * self.share() / 1_000;
                return cut(self, rows);
            }
        };
        let part = |number| Part {
            family: self,
            number,
            rows: 0,
        };
        (0..numbers).map(part).collect()
    }
}

/// Random rows in parts of at most so many.
fn cut(family: Family, rows: u64) -> Vec<Part> {
    const MOST: u64 = 20_000;
    let part = |number| Part {
        family,
        number,
        rows: MOST.min(rows - number * MOST),
    };
    (0..rows.div_ceil(MOST)).map(part).collect()
}

/// A part of a family: the same rows in each run with the same seed.
#[derive(Debug, Clone, Copy, PartialEq, Eq)]
pub struct Part {
    pub family: Family,
    number: u64,
    /// How many random rows it has.
    rows: u64,
}

impl Part {
    pub fn run(&self, seed: u64, sink: &mut dyn Sink) {
        let mut random = Random::new(seed, self.family as u64, self.number);
        match self.family {
            Family::Limits => limits::GROUPS[self.number as usize](&mut random, sink),
            Family::Short => self.up_to(&exhaustive::all_kinds(), 3, sink),
            Family::Four => self.exactly(&exhaustive::all_kinds(), 4, sink),
            Family::ValueTypes => self.up_to(&exhaustive::value_types(), 3, sink),
            Family::Dozens => self.up_to(&self.dozen(), 5, sink),
            Family::Six => self.exactly(&self.dozen(), 6, sink),
            _ => {
                let mut maker = Maker::new(random);
                maker.writer.long_lists = true;
                maker.writer.last_comma = self.family != Family::Commas;
                for _ in 0..self.rows {
                    self.random_row(&mut maker, sink);
                }
            }
        }
    }

    /// The dozen of kinds that this part takes.
    fn dozen(&self) -> Vec<Token> {
        match self.number / 12 {
            0 => exhaustive::of_expressions(),
            1 => exhaustive::of_operators(),
            _ => exhaustive::of_declarations(),
        }
    }

    /// The token of the alphabet with which the rows of this part begin.
    fn first(&self, alphabet: &[Token]) -> [Token; 1] {
        [alphabet[self.number as usize % alphabet.len()]]
    }

    /// The rows of up to so many tokens, from every cursor. The row of none is
    /// in the first part.
    fn up_to(&self, alphabet: &[Token], most: usize, sink: &mut dyn Sink) {
        if self.number == 0 {
            exhaustive::every_row(alphabet, &[], 0, Cursors::Every, sink);
        }
        let first = self.first(alphabet);
        for length in 1..=most {
            exhaustive::every_row(alphabet, &first, length, Cursors::Every, sink);
        }
    }

    /// The rows of so many tokens, from the first.
    fn exactly(&self, alphabet: &[Token], length: usize, sink: &mut dyn Sink) {
        let first = self.first(alphabet);
        exhaustive::every_row(alphabet, &first, length, Cursors::First, sink);
    }

    fn random_row(&self, maker: &mut Maker, sink: &mut dyn Sink) {
        let entry = maker.entry();
        match self.family {
            Family::Slots => slots(maker, entry, sink),
            Family::Commas => {
                let entry = [Entry::Struct, Entry::Word][maker.writer.random.below(2)];
                let room = maker.room();
                let damaged = maker.writer.random.once_in(4);
                maker.by_rules(entry, room, damaged);
                ask(maker, entry, sink);
            }
            Family::Deep => deep_row(maker, entry, sink),
            Family::Inputs => inputs(maker, entry, sink),
            Family::Any => {
                let tokens = maker.writer.random.below(12);
                maker.of_any(tokens);
                ask(maker, entry, sink);
            }
            family => {
                let room = maker.room();
                maker.by_rules(entry, room, family == Family::Damaged);
                ask(maker, entry, sink);
            }
        }
    }
}

/// The entry that the row was made for; and now and then another one, from
/// another cursor, or with other slots.
fn ask(maker: &mut Maker, entry: Entry, sink: &mut dyn Sink) {
    sink.row(maker.row());
    let question = maker.question(entry, maker.cursor);
    sink.ask(question);
    let tokens = maker.row().kinds.len();
    match maker.writer.random.below(16) {
        0 => {
            let entry = maker.entry();
            let question = maker.question(entry, maker.cursor);
            sink.ask(question);
        }
        1 => {
            let cursor = maker.writer.random.below(tokens);
            let question = maker.question(entry, cursor);
            sink.ask(question);
        }
        2 => {
            let few = maker.writer.random.below(tokens + 1) as u32;
            sink.ask(question.with_slots(question.base + few));
        }
        3 if maker.writer.random.once_in(500) => {
            let slots = MOST_SLOTS - maker.writer.random.below(3) as u32;
            let base = slots - maker.writer.random.below(tokens) as u32;
            let question = question.with_slots(slots);
            sink.ask(Question { base, ..question });
        }
        _ => {}
    }
}

/// A row by the rules with each number of slots that leaves it too few, and a
/// few more; of long rows, with some of these numbers.
fn slots(maker: &mut Maker, entry: Entry, sink: &mut dyn Sink) {
    let room = maker.room().min(2);
    let damaged = maker.writer.random.once_in(3);
    maker.by_rules(entry, room, damaged);
    sink.row(maker.row());
    let question = maker.question(entry, maker.cursor);
    let tokens = maker.row().kinds.len();
    let most = if tokens > 16 {
        2 * tokens
    } else {
        needed(tokens)
    };
    let step = 1 + most / 64;
    for few in (0..=most).step_by(step) {
        sink.ask(question.with_slots(question.base + few as u32));
    }
}

/// Mostly about as deep as allowed; some damaged.
fn deep_row(maker: &mut Maker, entry: Entry, sink: &mut dyn Sink) {
    maker.begin();
    let random = &mut maker.writer.random;
    let levels = match random.below(3) {
        0 => 30 + random.below(20),
        _ => MOST_OPEN as usize - 3 + random.below(8),
    };
    deep::entry(
        &mut maker.writer.kinds,
        entry,
        levels,
        Choice::Any(&mut maker.writer.random),
    );
    if maker.writer.random.once_in(3) {
        maker.writer.damage(maker.cursor);
    }
    maker.end();
    ask(maker, entry, sink);
}

/// Input that is refused before parsing.
fn inputs(maker: &mut Maker, entry: Entry, sink: &mut dyn Sink) {
    maker.by_rules(entry, 1, false);
    let mut question = maker.question(entry, maker.cursor);
    for _ in 0..1 + maker.writer.random.below(2) {
        spoil(maker, &mut question);
    }
    sink.row(maker.row());
    sink.ask(question);
}
