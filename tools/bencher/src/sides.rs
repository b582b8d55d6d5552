//! The two parsers on the rows of a case, with buffers that are used again and never cleared.

use std::hint::black_box;

use oracle::{Buffer, Entry, Reply, Row};
use penne_parser::raw::{self, PLACES};
use penne_parser::words::WordSlots;
use penne_parser::{self as penne, Slots, unpack};

use crate::rows::Case;

/// The most slots that document 01 allows.
const SLOTS: usize = oracle::MOST_SLOTS as usize;

/// Flags, the declaration's start and the declaring token of all declarations.
const FLAGS: u8 = 1;
const START: u32 = 0;
const WORD: u8 = 50;

#[derive(Clone, Copy, PartialEq)]
pub enum Side {
    /// The Rust's function, and the reading of its reply.
    Rust,
    /// The library's function, its checks of the input included.
    Ours,
    /// The same with a word a node.
    Words,
    /// The library's function with a cursor just past the row: it checks the whole input, as it
    /// does before a parse, and then refuses with 30.
    Checks,
}

pub const SIDES: [Side; 4] = [Side::Rust, Side::Ours, Side::Words, Side::Checks];

/// The buffers of both sides.
pub struct Buffers {
    rust: Buffer,
    node_kinds: Vec<u8>,
    node_loads: Vec<u32>,
    node_words: Vec<u32>,
}

impl Buffers {
    pub fn new() -> Buffers {
        Buffers {
            rust: Buffer::with_room(SLOTS),
            node_kinds: vec![0; SLOTS],
            node_loads: vec![0; SLOTS],
            node_words: vec![0; SLOTS],
        }
    }
}

/// The rows of a case, made ready for both sides.
pub struct Ready {
    entry: Entry,
    rust: Vec<Row>,
    ours: Vec<(Vec<u8>, Vec<u8>)>,
}

impl Ready {
    pub fn new(case: &Case) -> Ready {
        let row = |(kinds, types): &(Vec<u8>, Vec<u8>)| Row::new(kinds, types).expect("a row");
        Ready {
            entry: case.entry,
            rust: case.rows.iter().map(row).collect(),
            ours: case.rows.clone(),
        }
    }

    /// Parses each row once.
    pub fn parse(&self, side: Side, buffers: &mut Buffers) {
        match side {
            Side::Rust => self.rust.iter().for_each(|row| {
                black_box(rust(self.entry, row, &mut buffers.rust));
            }),
            Side::Ours => self.ours.iter().for_each(|row| {
                black_box(ours(self.entry, row, 0, buffers));
            }),
            Side::Words => self.ours.iter().for_each(|row| {
                black_box(words(self.entry, row, buffers));
            }),
            Side::Checks => self.ours.iter().for_each(|row| {
                black_box(ours(self.entry, row, row.0.len() as u32, buffers));
            }),
        }
    }

    /// Compares replies and nodes of both sides, and gives the number of nodes. Each row must be
    /// accepted and read up to EndOfSource.
    pub fn compare(&self, buffers: &mut Buffers) -> usize {
        let mut nodes = 0;
        for (theirs, row) in self.rust.iter().zip(&self.ours) {
            let reply = rust(self.entry, theirs, &mut buffers.rust);
            let Reply::Accepted { cursor, count, .. } = reply else {
                panic!("the Rust answers {reply}");
            };
            assert_eq!(cursor as usize, row.0.len() - 1);
            assert_eq!(ours(self.entry, row, 0, buffers), reply.numbers());
            assert_eq!(words(self.entry, row, buffers), reply.numbers());
            for (place, node) in buffers.rust.appended().enumerate() {
                assert_eq!((buffers.node_kinds[place], buffers.node_loads[place]), node);
                assert_eq!(unpack(buffers.node_words[place]), node);
            }
            let past = ours(self.entry, row, row.0.len() as u32, buffers);
            assert_eq!(past[..2], [1, 30]);
            nodes += count as usize;
        }
        nodes
    }
}

#[inline(never)]
fn rust(entry: Entry, row: &Row, buffer: &mut Buffer) -> Reply {
    match entry {
        Entry::Expression => row.expression_bare(0, buffer),
        Entry::Type => row.type_bare(0, buffer),
        Entry::Constant => row.constant_bare(0, FLAGS, START, buffer),
        Entry::Struct => row.struct_bare(0, FLAGS, START, buffer),
        Entry::Word => row.word_bare(0, FLAGS, START, WORD, buffer),
    }
}

fn numbered(entry: Entry) -> raw::Entry {
    let entry = raw::Entry::numbered(entry as u8, START, u32::from(FLAGS), WORD);
    entry.expect("one of five")
}

#[inline(never)]
fn ours(
    entry: Entry,
    (kinds, types): &(Vec<u8>, Vec<u8>),
    cursor: u32,
    to: &mut Buffers,
) -> [u32; PLACES] {
    let slots = Slots {
        kinds: &mut to.node_kinds,
        loads: &mut to.node_loads,
        count: &mut 0,
    };
    let mut reply = [0; PLACES];
    let row = penne::Row::new(kinds, types);
    raw::parse(numbered(entry), row, cursor, slots, &mut reply);
    reply
}

#[inline(never)]
fn words(entry: Entry, (kinds, types): &(Vec<u8>, Vec<u8>), to: &mut Buffers) -> [u32; PLACES] {
    let slots = WordSlots {
        words: &mut to.node_words,
        count: &mut 0,
    };
    let mut reply = [0; PLACES];
    let row = penne::Row::new(kinds, types);
    raw::parse_words(numbered(entry), row, 0, slots, &mut reply);
    reply
}
