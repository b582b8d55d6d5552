//! Replies and nodes beside those of Penne's own parser, which the oracle runs in this process.

mod common;

use std::collections::BTreeMap;

use common::{Writer, random, write_row};
use oracle::{Buffer, Entry, Question, Reply};
use penne_parser::{
    BaseToken, DeclarationFlags, Nodes, Parsed, Refusal, RefusalNumber, Row, Slots, TokenId,
    parse_constant_declaration, parse_expression, parse_struct_declaration, parse_type,
    parse_word_declaration,
};

/// The slots below the given count and above the replied one hold these.
const MARK: (u8, u32) = (13, 77);

/// A reply as the oracle has it.
fn replied(reply: Result<Parsed, Refusal>) -> Reply {
    match reply {
        Ok(parsed) => Reply::Accepted {
            root: parsed.root.0,
            cursor: parsed.cursor.0,
            count: parsed.count,
        },
        Err(refusal) => Reply::Refused {
            number: refusal.number as u32,
            start: refusal.start.0,
            end: refusal.end.0,
            cursor: refusal.cursor.0,
            count: refusal.count,
        },
    }
}

/// Asks one of the five entries.
fn ask<'n>(
    row: Row<'_>,
    question: &Question,
    nodes: impl Into<Slots<'n>>,
) -> Result<Parsed, Refusal> {
    let (cursor, start) = (TokenId(question.cursor), TokenId(question.start));
    let flags = DeclarationFlags::from_bits(question.flags.into()).expect("flags");
    let word = BaseToken::from_repr(question.word_kind).expect("a kind");
    match question.entry {
        Entry::Expression => parse_expression(row, cursor, nodes),
        Entry::Type => parse_type(row, cursor, nodes),
        Entry::Constant => parse_constant_declaration(row, cursor, nodes, start, flags),
        Entry::Struct => parse_struct_declaration(row, cursor, nodes, start, flags),
        Entry::Word => parse_word_declaration(row, cursor, nodes, start, flags, word),
    }
}

/// The oracle's reply in document 01's numbers, which decide where upstream's parser panics. None
/// where the nesting exceeds the limit, since that parser has none and so does not say where.
fn expected(question: &Question, reply: Reply, buffer: &Buffer) -> Option<Reply> {
    if let Reply::Accepted { .. } = reply {
        let nesting = oracle::nesting(question.entry, reply, buffer).expect("a nesting");
        return (nesting <= oracle::MOST_OPEN).then_some(reply);
    }
    if question.entry == Entry::Word && !(47..=51).contains(&question.word_kind) {
        return Some(Reply::Refused {
            number: 36,
            start: 0,
            end: 0,
            cursor: question.cursor,
            count: question.base,
        });
    }
    reply.in_document_01()
}

/// Both parsers, with room for nodes that is used again.
struct Beside {
    buffer: Buffer,
    kinds: Vec<u8>,
    loads: Vec<u32>,
    /// How often each reply was met: 0 for an acceptance, else the number of the refusal.
    met: BTreeMap<(u8, u32), u32>,
}

impl Beside {
    fn new() -> Beside {
        let slots = oracle::MOST_SLOTS as usize;
        Beside {
            buffer: Buffer::wide(),
            kinds: vec![MARK.0; slots],
            loads: vec![MARK.1; slots],
            met: BTreeMap::new(),
        }
    }

    /// Asks both, and compares the replies and the slots.
    fn compare(&mut self, row: Row<'_>, question: &Question) {
        let slots = question.slots.unwrap_or(oracle::MOST_SLOTS);
        let question = &Question {
            slots: Some(slots),
            ..*question
        };
        let theirs = oracle::Row::new(row.kinds, row.value_types).expect("a row");
        let mut reply = theirs.ask(question, &mut self.buffer).expect("a reply");
        if let Some(place) = oracle::dropped_comma(row.kinds, question, reply) {
            let (kinds, types) = (row.kinds, row.value_types);
            reply = oracle::ask_with_comma(kinds, types, place, question, &mut self.buffer)
                .expect("a reply");
        }
        let expected = expected(question, reply, &self.buffer);
        let slots = slots as usize;
        let mut count = question.base;
        let ours = replied(ask(
            row,
            question,
            Slots {
                kinds: &mut self.kinds[..slots],
                loads: &mut self.loads[..slots],
                count: &mut count,
            },
        ));
        *self
            .met
            .entry((question.entry as u8, ours.number()))
            .or_default() += 1;
        let case = || format!("{:?} {question:?}", &row.kinds[..row.len().min(400)]);
        match expected {
            Some(expected) => {
                assert_eq!(ours, expected, "{}", case());
                assert!(self.nodes_agree(question.base, count), "{}", case());
            }
            None => assert_eq!(ours.number(), 34, "{}", case()),
        }
        self.mark_again(question.base, count);
    }

    /// Whether the appended nodes are the oracle's, and the slots before and after them as they were.
    fn nodes_agree(&self, base: u32, count: u32) -> bool {
        let (base, count) = (base as usize, count as usize);
        let node = |place: usize| (self.kinds[place], self.loads[place]);
        let before = base.saturating_sub(50)..base;
        let after = count..(count + 50).min(self.kinds.len());
        let appended = (base..count).map(node);
        appended.eq(self.buffer.appended()) && before.chain(after).all(|place| node(place) == MARK)
    }

    fn mark_again(&mut self, base: u32, count: u32) {
        let appended = base as usize..count as usize;
        self.kinds[appended.clone()].fill(MARK.0);
        self.loads[appended].fill(MARK.1);
    }
}

/// A row for the entry, and what to ask of it. Every second has another cursor and base than 0,
/// every tenth few slots.
fn random_case(writer: &mut Writer, case: usize, entry: Entry) -> (Vec<u8>, Question) {
    let special = case % 2 == 1;
    write_row(writer, entry);
    let random = &mut writer.random;
    let cursor = if special { random.below(4) } else { 0 };
    let before = (0..cursor).map(|_| random.below(62) as u8);
    let mut kinds: Vec<u8> = before.collect();
    kinds.extend(&writer.kinds);
    kinds.push(0);
    let base = if special { random.below(300) as u32 } else { 0 };
    let word = if random.once_in(20) {
        random.below(62)
    } else {
        47 + random.below(5)
    };
    let question = Question {
        entry,
        cursor: cursor as u32,
        base,
        slots: (case % 10 == 9).then(|| base + random.below(20) as u32),
        flags: random.below(32) as u8,
        start: random.below(kinds.len()) as u32,
        word_kind: word as u8,
    };
    (kinds, question)
}

#[test]
fn random_rows() {
    let cases = if cfg!(debug_assertions) {
        60_000
    } else {
        1_000_000
    };
    oracle::with_large_stack(|| {
        let mut beside = Beside::new();
        let mut writer = Writer::new(random(1));
        for case in 0..cases {
            let (kinds, question) = random_case(&mut writer, case, Entry::ALL[case % 5]);
            let types = kinds.iter().map(|_| writer.random.below(15) as u8);
            let types: Vec<u8> = types.collect();
            beside.compare(Row::new(&kinds, &types), &question);
        }
        // Each entry accepts often, and each refusal while parsing but 34 was met.
        for entry in 0..5 {
            assert!(beside.met[&(entry, 0)] > 1_000, "{:?}", beside.met);
        }
        for number in (10..=25).chain([33, 36]) {
            let met = beside.met.keys().any(|&(_, refusal)| refusal == number);
            assert!(met, "{number} {:?}", beside.met);
        }
    });
}

#[test]
fn rows_of_random_kinds() {
    oracle::with_large_stack(|| {
        let mut beside = Beside::new();
        let mut random = random(2);
        for case in 0..30_000 {
            let size = random.below(12);
            let kinds: Vec<u8> = (0..size).map(|_| random.below(62) as u8).collect();
            let kinds = [&kinds[..], &[0]].concat();
            let question = Question {
                cursor: random.below(kinds.len()) as u32,
                ..Question::new(Entry::ALL[case % 5])
            };
            let types = vec![random.below(15) as u8; kinds.len()];
            beside.compare(Row::new(&kinds, &types), &question);
        }
    });
}

#[test]
fn rows_at_the_limits() {
    oracle::with_large_stack(|| {
        let mut beside = Beside::new();
        let mut compare = |parts: &[&[u8]], entry| {
            let kinds = [&parts.concat()[..], &[0]].concat();
            let types = vec![0; kinds.len()];
            beside.compare(Row::new(&kinds, &types), &Question::new(entry));
        };
        for levels in [1, 38, 39, 40, 41, 200] {
            let repeat = |kinds: &[u8]| kinds.repeat(levels);
            for (open, close) in [
                ([1].as_slice(), [2].as_slice()),
                (&[5], &[6]),
                (&[53, 1], &[2]),
            ] {
                compare(&[&repeat(open), &[55], &repeat(close)], Entry::Expression);
            }
            compare(&[&repeat(&[10]), &[52]], Entry::Type);
            compare(&[&repeat(&[5, 6]), &[53]], Entry::Type);
        }
        for times in [125, 126, 127, 128, 129] {
            compare(&[&[53], &[21, 53].repeat(times)], Entry::Expression);
            compare(&[&[10].repeat(times), &[53]], Entry::Expression);
            compare(&[&[9], &[10].repeat(times), &[53, 9]], Entry::Expression);
        }
        // The longest rows: one that fits the slots, and one that does not.
        compare(&[&[55, 14].repeat(32_766), &[55]], Entry::Expression);
        compare(&[&[53, 14].repeat(32_766), &[53]], Entry::Expression);
    });
}

/// Five slots a token are enough, as `Nodes::reserve_for` has it.
#[test]
fn reserved_slots_are_enough() {
    let mut writer = Writer::new(random(3));
    for case in 0..30_000 {
        let (kinds, question) = random_case(&mut writer, 0, Entry::ALL[case % 5]);
        let types = vec![0; kinds.len()];
        let row = Row::new(&kinds, &types);
        let nodes = &mut Nodes::new();
        nodes.reserve_for(row);
        assert_eq!(nodes.slots(), 5 * kinds.len());
        let reply = ask(row, &question, &mut *nodes);
        let count = reply.map_or_else(|refusal| refusal.count, |parsed| parsed.count);
        assert_eq!(nodes.len(), count as usize);
        let number = reply.map_err(|refusal| refusal.number);
        assert_ne!(number, Err(RefusalNumber::NoSlot), "{kinds:?}");
    }
}
