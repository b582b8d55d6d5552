//! The proved parser, by the package for Rust.

use comparer::compare::Parser;
use comparer::question::{Question, Row};
use penne_parser::raw::{self, Entry, PLACES};
use penne_parser::words::WordSlots;
use penne_parser::{self as penne, MAX_SLOTS, Slots, unpack};

pub struct Ours;

impl Parser for Ours {
    fn parse(
        &mut self,
        row: Row<'_>,
        question: &Question,
        node_kinds: &mut [u8],
        node_loads: &mut [u32],
    ) -> [u32; PLACES] {
        let mut reply = [u32::MAX; PLACES];
        let done = call(row, question, node_kinds, node_loads, &mut reply);
        assert!(done, "a reply of six numbers was not taken");
        reply
    }
}

/// The entries with a word a node. What they write is unpacked into the columns, so that the same
/// is compared.
pub struct InWords {
    /// Before each parse every word is the mark of its place.
    words: Vec<u32>,
}

/// A word that no parse writes there: no node has its kind.
fn mark(place: usize) -> u32 {
    128 + (place % 128) as u32 + ((place as u32) << 8)
}

impl InWords {
    pub fn new() -> InWords {
        InWords {
            words: (0..=MAX_SLOTS).map(mark).collect(),
        }
    }
}

impl Parser for InWords {
    fn parse(
        &mut self,
        row: Row<'_>,
        question: &Question,
        node_kinds: &mut [u8],
        node_loads: &mut [u32],
    ) -> [u32; PLACES] {
        // Columns that differ in length have no words that agree with them.
        if node_kinds.len() != node_loads.len() {
            return Ours.parse(row, question, node_kinds, node_loads);
        }
        let words = &mut self.words[..node_kinds.len()];
        let mut reply = [u32::MAX; PLACES];
        let slots = WordSlots {
            words: &mut *words,
            count: &mut { question.base },
        };
        let row = penne::Row::new(row.kinds, row.types);
        let done = raw::parse_words(entry(question), row, question.cursor, slots, &mut reply);
        assert!(done, "a reply of six numbers was not taken");
        for (place, word) in words.iter_mut().enumerate() {
            if *word != mark(place) {
                (node_kinds[place], node_loads[place]) = unpack(*word);
                *word = mark(place);
            }
        }
        reply
    }
}

fn entry(q: &Question) -> Entry {
    Entry::numbered(q.entry as u8, q.start, q.flags, q.word_kind).expect("one of five")
}

/// Calls the entry of the question; false if the reply has too few places.
pub fn call(
    row: Row<'_>,
    q: &Question,
    kinds: &mut [u8],
    loads: &mut [u32],
    reply: &mut [u32],
) -> bool {
    let count = &mut { q.base };
    let slots = Slots {
        kinds,
        loads,
        count,
    };
    let row = penne::Row::new(row.kinds, row.types);
    raw::parse(entry(q), row, q.cursor, slots, reply)
}
