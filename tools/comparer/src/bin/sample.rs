//! Writes a fixed sample of rows with the Rust's answers, for the program
//! entry_rows of the gate, which replays them: `sample DIRECTORY`.
//!
//! Rows are made at random, always the same ones. A row is kept if its answer
//! shows something that none before it showed often enough: see `Seen`.

use std::collections::HashMap;
use std::fmt::Write as _;
use std::{fs, io, path::Path};

use comparer::deep::{self, Choice};
use comparer::judge::Judge;
use comparer::kind::*;
use comparer::question::{Entry, MOST_OPEN, MOST_SLOTS, Question, Reply, Row};
use comparer::random::Random;
use comparer::rows::{Maker, spoil};

/// How large a row and its columns may be.
struct Room {
    tokens: usize,
    slots: u32,
}

/// Most of the sample is small.
const SMALL: Room = Room {
    tokens: 64,
    slots: 300,
};

/// How many random rows are tried; far fewer are kept.
const TRIED: u64 = 1_000_000;

/// The line of the program's input and output after which the sample stands.
const MARK: &str = "# A sample of the Rust's answers, as SAMPLE.md says\n";

fn main() -> io::Result<()> {
    let Some(directory) = std::env::args().nth(1) else {
        eprintln!("usage: sample DIRECTORY");
        std::process::exit(2);
    };
    let directory = Path::new(&directory);
    oracle::with_large_stack(|| {
        let mut sample = Sample::new();
        for candidate in small_candidates() {
            assert!(SMALL.fits(candidate.row(), &candidate.question));
            sample.consider(&candidate);
        }
        for candidate in large_candidates() {
            sample.keep(&candidate);
        }
        renew(&directory.join("stdin"), &sample.questions)?;
        renew(&directory.join("stdout"), &sample.answers)?;
        let text = INTRODUCTION.to_string() + &sample.summary();
        fs::write(directory.join("SAMPLE.md"), text)
    })
}

/// The file with these lines after the mark, in the place of what was there.
fn renew(path: &Path, lines: &str) -> io::Result<()> {
    let text = fs::read_to_string(path)?;
    let by_hand = text.split(MARK).next().expect("a first part");
    fs::write(path, [by_hand, MARK, lines].concat())
}

const INTRODUCTION: &str = "\
# The Rust's answers to a fixed sample of rows

The last part of `stdin` and `stdout` is made by

    cd tools/comparer && cargo run --release --offline --bin sample -- ../../crates/entry_rows

which gives the same lines each time. It makes rows by the reading rules, damages every second one, and keeps a row if
the answer to it shows something that the answers kept before it did not show often enough: a refusal number by an entry,
the token found, the node appended last, two nodes that follow each other in an accepted parse, a value type, flags and
word kinds. Shorter rows are preferred. Rows for refusals 24, 31, 32 and 34, with those on the other side of each limit,
stand at the end.

The answers are those of the Rust, run unchanged by `oracle/`; only where it panics (25, 33, 36), does not limit (34) or
cannot be asked (1, 2, 3, 30, 31, 32, 35) they are document 01's. Where the last member has no comma they are those to the
row with it, the tokens behind it numbered one less. The program of the gate needs no Rust: it asks the proved entries, and
what it prints must be these lines.
";

/// A row with a question.
struct Candidate {
    kinds: Vec<u8>,
    types: Vec<u8>,
    question: Question,
}

impl Candidate {
    fn new(maker: &Maker, question: Question) -> Candidate {
        Candidate {
            kinds: maker.writer.kinds.clone(),
            types: maker.types.clone(),
            question,
        }
    }

    fn of_kinds(kinds: &[u8], question: Question) -> Candidate {
        let kinds = [kinds, &[END_OF_SOURCE]].concat();
        let types = vec![0; kinds.len()];
        Candidate {
            kinds,
            types,
            question,
        }
    }

    fn row(&self) -> Row<'_> {
        Row {
            kinds: &self.kinds,
            types: &self.types,
        }
    }
}

/// Shorter rows stand first, so that they are preferred.
fn small_candidates() -> Vec<Candidate> {
    let mut candidates = one_token_rows();
    candidates.extend(random_rows());
    candidates.sort_by_key(|candidate| candidate.kinds.len());
    candidates
}

/// Every row of one token, by every entry, from its first token.
fn one_token_rows() -> Vec<Candidate> {
    let mut candidates = Vec::new();
    let mut maker = Maker::new(Random::new(0, 1, 0));
    for entry in Entry::ALL {
        for kind in 0..62 {
            maker.writer.kinds = vec![kind, END_OF_SOURCE];
            maker.types = vec![0, 0];
            let question = SMALL.limit(maker.question(entry, 0));
            candidates.push(Candidate::new(&maker, question));
        }
    }
    candidates
}

/// Rows by the rules, every second one damaged; some with few slots, and some
/// that are refused before parsing.
fn random_rows() -> Vec<Candidate> {
    let mut candidates = Vec::new();
    let mut maker = Maker::new(Random::new(0, 2, 0));
    for round in 0..TRIED {
        let entry = maker.entry();
        let room = maker.room().min(2);
        maker.by_rules(entry, room, round % 2 == 1);
        let mut question = SMALL.limit(maker.question(entry, maker.cursor));
        if round % 8 == 0 {
            let few = maker.writer.random.below(30) as u32;
            question = question.with_slots(question.base + few);
        }
        if round % 64 == 3 {
            spoil(&mut maker, &mut question);
        }
        if SMALL.fits(maker.row(), &question) {
            candidates.push(Candidate::new(&maker, question));
        }
    }
    candidates
}

impl Room {
    /// The same question with no more slots than these.
    fn limit(&self, question: Question) -> Question {
        if question.slots <= self.slots {
            return question;
        }
        let base = question.base.min(self.slots / 2);
        let question = question.with_slots(self.slots);
        Question { base, ..question }
    }

    fn fits(&self, row: Row<'_>, question: &Question) -> bool {
        row.kinds.len().max(row.types.len()) <= self.tokens
            && question.slots <= self.slots
            && question.slots == question.load_slots
            && question.base <= question.slots
    }
}

/// Refusals 24, 31, 32 and 34 by each entry that gives them, and the accepted
/// rows on the other side of each limit.
fn large_candidates() -> Vec<Candidate> {
    let mut candidates = Vec::new();
    for entry in Entry::ALL {
        let question = Question::new(entry, 2_000);
        let whole = deep_row(entry, 1, 0);
        for slots in [MOST_SLOTS, MOST_SLOTS + 1] {
            candidates.push(Candidate::of_kinds(&whole, question.with_slots(slots)));
        }
        for base in [7, 8, 9, u32::MAX] {
            let question = question.with_slots(8);
            candidates.push(Candidate::of_kinds(&whole, Question { base, ..question }));
        }
        for opening in [0, 1, 5] {
            for levels in [MOST_OPEN as usize, MOST_OPEN as usize + 1] {
                let kinds = deep_row(entry, levels, opening);
                let base = 10 * opening as u32;
                candidates.push(Candidate::of_kinds(&kinds, Question { base, ..question }));
            }
        }
    }
    for entry in [Entry::Expression, Entry::Constant] {
        for value in counted_values() {
            let kinds = match entry {
                Entry::Expression => value,
                _ => [&[53, 19, 52, 23], &value[..], &[20]].concat(),
            };
            candidates.push(Candidate::of_kinds(&kinds, Question::new(entry, 2_000)));
        }
    }
    candidates
}

fn deep_row(entry: Entry, levels: usize, opening: usize) -> Vec<u8> {
    let mut kinds = Vec::new();
    deep::entry(&mut kinds, entry, levels, Choice::Same(opening));
    kinds
}

/// About as many ampersands and steps as there may be.
fn counted_values() -> Vec<Vec<u8>> {
    let mut values = Vec::new();
    for count in 126..=128 {
        let ampersands = vec![AMPERSAND; count];
        values.push([&ampersands[..], &[IDENTIFIER]].concat());
        values.push([&[PIPE], &ampersands[..], &[IDENTIFIER, PIPE]].concat());
    }
    for count in 125..=128 {
        values.push([&[IDENTIFIER][..], &[DOT, IDENTIFIER].repeat(count)].concat());
        let elements = [BRACKET_LEFT, NAKED_DECIMAL, BRACKET_RIGHT].repeat(count);
        values.push([&[AMPERSAND, IDENTIFIER][..], &elements].concat());
    }
    values
}

/// What the kept answers have shown so far, and how often.
#[derive(Default)]
struct Seen(HashMap<Sight, u32>);

#[derive(PartialEq, Eq, Hash)]
enum Sight {
    /// A refusal by an entry.
    Refusal(u32, u32),
    /// A refusal while parsing, by the token found.
    Found(u32, u8),
    /// A refusal while parsing by an entry, by the node appended last.
    After(u32, u32, u8),
    /// An accepted parse by an entry, by two nodes that follow each other.
    Pair(u32, u8, u8),
    /// A value type of a node.
    ValueType(u32),
    /// A declaration's flags and word kind.
    Declared(u32, u32, u8),
}

impl Seen {
    /// Whether any of the sights was seen less often than it may be; if so,
    /// all are counted.
    fn take(&mut self, sights: Vec<(Sight, u32)>) -> bool {
        let fresh = sights
            .iter()
            .any(|(sight, most)| self.0.get(sight).copied().unwrap_or(0) < *most);
        if fresh {
            for (sight, _) in sights {
                *self.0.entry(sight).or_insert(0) += 1;
            }
        }
        fresh
    }
}

struct Sample {
    judge: Judge,
    seen: Seen,
    questions: String,
    answers: String,
    kept: u32,
    /// By entry and number; 0 is acceptance.
    counts: [[u32; 40]; 5],
    node_kinds: [u32; 64],
    based: u32,
}

impl Sample {
    fn new() -> Sample {
        Sample {
            judge: Judge::new(),
            seen: Seen::default(),
            questions: String::new(),
            answers: String::new(),
            kept: 0,
            counts: [[0; 40]; 5],
            node_kinds: [0; 64],
            based: 0,
        }
    }

    /// Keeps a row and its answer if the answer shows something new.
    fn consider(&mut self, candidate: &Candidate) {
        let reply = self.answer(candidate);
        if self
            .seen
            .take(sights(&self.judge, &candidate.question, reply))
        {
            self.write_down(candidate.question, reply);
        }
    }

    fn keep(&mut self, candidate: &Candidate) {
        let reply = self.answer(candidate);
        self.write_down(candidate.question, reply);
    }

    fn answer(&mut self, candidate: &Candidate) -> Reply {
        self.judge.set_row(candidate.row());
        let answer = self.judge.answer(&candidate.question);
        answer.expect("the judge's parts agree")
    }

    fn write_down(&mut self, question: Question, reply: Reply) {
        self.kept += 1;
        let number = self.kept;
        let asked = asked(self.judge.row(), &question);
        writeln!(self.questions, "{number} # {asked}").expect("a string");
        write!(self.answers, "{number}: {reply}, frame kept").expect("a string");
        self.answers += &told(self.judge.nodes());
        self.answers.push('\n');
        for &(kind, _) in self.judge.nodes() {
            self.node_kinds[kind as usize] += 1;
        }
        self.counts[question.entry as usize][reply.number() as usize] += 1;
        self.based += u32::from(question.base > 0);
    }

    /// How many rows by answer and entry.
    fn summary(&self) -> String {
        let mut text = format!(
            "\nThere are {} rows, {} of them with a node count above 0. The nodes are of {} kinds.\n\n",
            self.kept,
            self.based,
            self.node_kinds.iter().filter(|&&count| count > 0).count(),
        );
        text += "| answer | expression | type | constant | struct | word |\n|---|---|---|---|---|---|\n";
        for number in 0..40 {
            let by_entry: Vec<u32> = self.counts.iter().map(|entry| entry[number]).collect();
            if by_entry.iter().all(|&count| count == 0) {
                continue;
            }
            let answer = match number {
                0 => "accepted".into(),
                number => number.to_string(),
            };
            let cells: Vec<String> = by_entry.iter().map(u32::to_string).collect();
            writeln!(text, "| {answer} | {} |", cells.join(" | ")).expect("a string");
        }
        text
    }
}

/// The program prints so many nodes one by one, and of more their number and
/// a checksum, as crates/node_slots/src/lib.rt says.
const PRINTED: usize = 512;

fn told(nodes: &[(u8, u32)]) -> String {
    if nodes.len() <= PRINTED {
        let each = |(kind, load): &(u8, u32)| format!(", {kind} {load}");
        return nodes.iter().map(each).collect();
    }
    let mix = |sum: u64, number: u64| (sum * 65_537 + number) % 4_294_967_291;
    let checksum = nodes.iter().fold(0, |sum, &(kind, load)| {
        mix(mix(sum, kind.into()), load.into())
    });
    format!(", nodes {}, checksum {checksum}", nodes.len())
}

/// What the program takes where a setting is left out.
const USUAL_SLOTS: u32 = 64;
const USUAL_TYPE: u8 = 4;

/// A question and its row as crates/entry_rows/src/question.rt has them.
fn asked(row: Row<'_>, question: &Question) -> String {
    let mut text = match question.entry {
        Entry::Expression => "expression",
        Entry::Type => "type",
        Entry::Constant => "constant",
        Entry::Struct => "struct",
        Entry::Word => "word",
    }
    .to_string();
    let settings = [
        ("cursor", question.cursor, 0),
        ("count", question.base, 0),
        ("start", question.start, 0),
        ("flags", question.flags, 0),
        ("kind", question.word_kind.into(), WORD8.into()),
        ("slots", question.slots, USUAL_SLOTS),
        ("loads", question.load_slots, question.slots),
        ("types", row.types.len() as u32, row.kinds.len() as u32),
    ];
    for (name, value, usual) in settings {
        if value != usual {
            write!(text, " {name} {value}").expect("a string");
        }
    }
    text + " :" + &words(row)
}

/// The tokens, each with how often it stands there in turn.
fn words(row: Row<'_>) -> String {
    let types = row
        .types
        .iter()
        .copied()
        .chain(std::iter::repeat(USUAL_TYPE));
    let tokens: Vec<(u8, u8)> = row.kinds.iter().copied().zip(types).collect();
    let mut text = String::new();
    for run in tokens.chunk_by(|a, b| a == b) {
        let (kind, value_type) = run[0];
        write!(text, " {kind}").expect("a string");
        if value_type != USUAL_TYPE {
            write!(text, "/{value_type}").expect("a string");
        }
        if run.len() > 1 {
            write!(text, "*{}", run.len()).expect("a string");
        }
    }
    text
}

/// What an answer shows, each with how often it is wanted.
fn sights(judge: &Judge, question: &Question, reply: Reply) -> Vec<(Sight, u32)> {
    let entry = question.entry as u32;
    let nodes = judge.nodes();
    let mut sights = Vec::new();
    match reply {
        Reply::Accepted { .. } => {
            for pair in nodes.windows(2) {
                sights.push((Sight::Pair(entry, pair[0].0, pair[1].0), 1));
            }
        }
        Reply::Refused { number, start, .. } => {
            sights.push((Sight::Refusal(entry, number), 12));
            if let Some(&found) = judge.row().kinds.get(start as usize)
                && (10..30).contains(&number)
            {
                sights.push((Sight::Found(number, found), 1));
            }
            let last = nodes.last().map_or(255, |node| node.0);
            sights.push((Sight::After(entry, number, last), 2));
        }
        Reply::Panicked { .. } => unreachable!("the judge answers with refusals"),
    }
    for &(kind, load) in nodes {
        match kind {
            41 => sights.push((Sight::ValueType(load), 4)),
            3 | 4 => {
                let word_kind = match question.entry {
                    Entry::Word => question.word_kind,
                    _ => 0,
                };
                sights.push((Sight::Declared(entry, question.flags, word_kind), 1));
            }
            _ => {}
        }
    }
    sights
}
