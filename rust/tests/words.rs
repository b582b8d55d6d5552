//! The entries with a word a node beside those with columns, and packing.

mod common;

use common::{Random, Writer, random, write_row};
use oracle::Entry;
use penne_parser::raw::{self, PLACES};
use penne_parser::words::{self, MAX_LOAD, WordNodes, WordSlots};
use penne_parser::{
    BaseToken, MAX_SLOTS, Nodes, RefusalNumber, Row, Slots, TokenId, Tokens, parse_expression,
};

/// How many questions are asked by each entry: ten million by all five where the code is optimized.
const QUESTIONS: u32 = if cfg!(debug_assertions) {
    100_000
} else {
    2_000_000
};

/// A question: all that an entry is given but for the nodes.
struct Question<'a> {
    entry: raw::Entry,
    row: Row<'a>,
    cursor: u32,
    count: u32,
}

/// Asks with columns and with words that agree in all slots, and compares all that comes back. Gives
/// the reply.
fn compare(question: &Question<'_>, before: &[u32]) -> [u32; PLACES] {
    let &Question {
        entry,
        row,
        cursor,
        mut count,
    } = question;
    let (mut kinds, mut loads): (Vec<u8>, Vec<u32>) =
        before.iter().map(|&word| raw::unpack(word)).unzip();
    let mut node_words = before.to_vec();
    let (mut reply, mut with_words) = ([7; PLACES], [8; PLACES]);
    let slots = Slots {
        kinds: &mut kinds,
        loads: &mut loads,
        count: &mut count,
    };
    assert!(raw::parse(entry, row, cursor, slots, &mut reply));
    let slots = WordSlots {
        words: &mut node_words,
        count: &mut count,
    };
    assert!(raw::parse_words(entry, row, cursor, slots, &mut with_words));
    let case = || format!("{entry:?} {:?} from {cursor}, count {count}", row.kinds);
    assert_eq!(reply, with_words, "{}", case());
    let unpacked = node_words.iter().map(|&word| raw::unpack(word));
    assert!(unpacked.eq(kinds.into_iter().zip(loads)), "{}", case());
    reply
}

/// An entry with any start, flags and word kind, most of them good.
fn any_entry(random: &mut Random, entry: Entry, size: usize) -> raw::Entry {
    let start = random.below(size + 2) as u32;
    let flags = random.below(34) as u32;
    let word = 46 + random.below(7) as u8;
    raw::Entry::numbered(entry as u8, start, flags, word).expect("an entry")
}

#[test]
fn replies_and_nodes_are_those_of_the_columns() {
    let mut writer = Writer::new(random(12));
    for entry in Entry::ALL {
        let (mut accepted, mut refused) = (0, 0);
        for _ in 0..QUESTIONS {
            write_row(&mut writer, entry);
            let mut kinds = writer.kinds.clone();
            kinds.push(0);
            let random = &mut writer.random;
            let types: Vec<_> = kinds.iter().map(|_| random.below(15) as u8).collect();
            // Any words: of no kind of a node, and with any loads.
            let before: Vec<_> = (0..random.below(60))
                .map(|_| random.number() as u32)
                .collect();
            let question = Question {
                entry: any_entry(random, entry, kinds.len()),
                row: Row::new(&kinds, &types),
                cursor: (random.below(40) / 38 * random.below(kinds.len() + 1)) as u32,
                count: random.below(before.len() + 2) as u32,
            };
            match compare(&question, &before)[0] {
                raw::ACCEPTED => accepted += 1,
                _ => refused += 1,
            }
        }
        assert!(
            accepted > QUESTIONS / 20 && refused > QUESTIONS / 20,
            "{entry:?}: {accepted}"
        );
    }
}

#[test]
fn any_bytes_get_the_reply_of_the_columns() {
    let mut random = random(56);
    for _ in 0..QUESTIONS {
        let size = random.below(6);
        let mut kinds: Vec<_> = (0..size).map(|_| random.below(64) as u8).collect();
        if !random.once_in(8) {
            kinds.push(0);
        }
        let longer = usize::from(random.once_in(20));
        let types: Vec<_> = (0..kinds.len() + longer)
            .map(|_| random.below(16) as u8)
            .collect();
        let before: Vec<_> = (0..random.below(30))
            .map(|_| random.number() as u32)
            .collect();
        let entry = Entry::ALL[random.below(Entry::ALL.len())];
        let question = Question {
            entry: any_entry(&mut random, entry, kinds.len()),
            row: Row::new(&kinds, &types),
            cursor: random.below(size + 2) as u32,
            count: random.below(before.len() + 2) as u32,
        };
        compare(&question, &before);
    }
}

/// One slot more than may be is refused with 31, of words as of columns.
#[test]
fn the_most_slots() {
    let row = Row::new(&[55, 0], &[0, 0]);
    let question = Question {
        entry: raw::Entry::Expression,
        row,
        cursor: 0,
        count: 0,
    };
    assert_eq!(compare(&question, &vec![5; MAX_SLOTS])[..4], [0, 0, 1, 1]);
    assert_eq!(
        compare(&question, &vec![5; MAX_SLOTS + 1]),
        [1, 31, 0, 0, 0, 0]
    );
}

#[test]
fn too_few_places_for_a_reply() {
    let mut node_words = [3; 10];
    let mut reply = [9; PLACES - 1];
    let slots = WordSlots {
        words: &mut node_words,
        count: &mut 0,
    };
    let row = Row::new(&[55, 0], &[0, 0]);
    assert!(!raw::parse_words(
        raw::Entry::Expression,
        row,
        0,
        slots,
        &mut reply
    ));
    assert!(!raw::pack(21, 1, &mut reply));
    assert_eq!((node_words, reply), ([3; 10], [9; PLACES - 1]));
}

#[test]
fn packing_is_undone() {
    let loads = (0..24).flat_map(|bit| [1 << bit, (1 << bit) - 1, (2 << bit) - 1]);
    for load in loads {
        for kind in 0..=u8::MAX {
            let word = words::pack(kind, load).expect("a word");
            assert_eq!(word, u32::from(kind) + 256 * load);
            assert_eq!(raw::unpack(word), (kind, load));
        }
    }
    let mut random = random(24);
    for word in (0..1_000_000)
        .map(|_| random.number() as u32)
        .chain([0, u32::MAX])
    {
        let (kind, load) = raw::unpack(word);
        assert_eq!(words::pack(kind, load), Ok(word));
    }
}

#[test]
fn a_load_that_fits_no_word() {
    for load in [MAX_LOAD + 1, 1 << 25, u32::MAX] {
        let mut reply = [9; PLACES];
        assert!(raw::pack(255, load, &mut reply));
        assert_eq!(
            reply,
            [raw::REFUSED, RefusalNumber::LoadTooLarge as u32, 0, 0, 0, 0]
        );
    }
    assert_eq!(words::pack(255, MAX_LOAD), Ok(u32::MAX));
}

/// A buffer of words grows, is appended to, read and cut as one of columns.
#[test]
fn buffers() {
    let tokens: Tokens = [
        BaseToken::Identifier,
        BaseToken::Plus,
        BaseToken::NakedDecimal,
    ]
    .into_iter()
    .collect();
    let (mut columns, mut node_words) = (Nodes::new(), WordNodes::new());
    for round in 1..=3 {
        columns.reserve_for(tokens.row());
        node_words.reserve_for(tokens.row());
        let parsed = parse_expression(tokens.row(), TokenId(0), &mut columns);
        assert_eq!(
            words::parse_expression(tokens.row(), TokenId(0), &mut node_words),
            parsed
        );
        let root = parsed.expect("a sum").root;
        assert_eq!(node_words.len(), 9 * round);
        assert_eq!(node_words.view().get(root), columns.view().get(root));
        assert_eq!(
            node_words.view().draw(root).to_string(),
            columns.view().draw(root).to_string()
        );
    }
    assert_eq!(node_words.slots(), columns.slots());
    node_words.truncate(9);
    assert_eq!(node_words.words().len(), 9);
    node_words.clear();
    assert!(node_words.is_empty() && node_words.words().is_empty());
}
