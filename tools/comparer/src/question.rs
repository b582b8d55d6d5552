//! What an entry is asked and what it answers, in document 01's terms.

use std::fmt;

use oracle::hexadecimal;
pub use oracle::{Entry, MOST_FLAGS, MOST_OPEN, MOST_SLOTS, MOST_TOKENS, Numbers, Reply};

/// The two columns of a row. Their lengths may differ: that is refusal 1.
#[derive(Debug, Clone, Copy, PartialEq, Eq)]
pub struct Row<'a> {
    pub kinds: &'a [u8],
    pub types: &'a [u8],
}

/// An entry with all that it is given besides the row.
#[derive(Debug, Clone, Copy, PartialEq, Eq)]
pub struct Question {
    pub entry: Entry,
    pub cursor: u32,
    /// The node count that is given.
    pub base: u32,
    /// The length of the column of node kinds.
    pub slots: u32,
    /// The length of the column of node loads; another one is refusal 31.
    pub load_slots: u32,
    /// Flags and start are given to declarations only.
    pub flags: u32,
    pub start: u32,
    /// Given to word declarations only.
    pub word_kind: u8,
}

impl Question {
    /// An entry from cursor, base, flags and start 0; a word is a `word8`.
    pub fn new(entry: Entry, slots: u32) -> Question {
        Question {
            entry,
            cursor: 0,
            base: 0,
            slots,
            load_slots: slots,
            flags: 0,
            start: 0,
            word_kind: crate::kind::WORD8,
        }
    }

    /// The same question with so many slots in both columns.
    pub fn with_slots(self, slots: u32) -> Question {
        Question {
            slots,
            load_slots: slots,
            ..self
        }
    }

    pub fn declares(&self) -> bool {
        matches!(self.entry, Entry::Constant | Entry::Struct | Entry::Word)
    }
}

/// A row and a question in the form of the oracle's program:
/// `ENTRY CURSOR BASE FLAGS START WORDKIND KINDS TYPES SLOTS`.
pub struct Line<'a>(pub Row<'a>, pub Question);

impl fmt::Display for Line<'_> {
    fn fmt(&self, f: &mut fmt::Formatter<'_>) -> fmt::Result {
        let Line(row, q) = self;
        write!(
            f,
            "{} {} {} {} {} {} {} {} {}",
            q.entry as u32,
            q.cursor,
            q.base,
            q.flags,
            q.start,
            q.word_kind,
            hexadecimal::written(row.kinds),
            types_column(row),
            q.slots
        )
    }
}

/// Reads what `Line` writes: kinds, value types and question; or says what is
/// wrong with it.
pub fn read_line(line: &str) -> Result<(Vec<u8>, Vec<u8>, Question), String> {
    let fields: Vec<&str> = line.split_ascii_whitespace().collect();
    let [
        entry,
        cursor,
        base,
        flags,
        start,
        word_kind,
        kinds,
        types,
        slots,
    ] = fields[..]
    else {
        return Err(format!(
            "a question has nine fields, and this one has {}",
            fields.len()
        ));
    };
    let kinds = hexadecimal::read(kinds).ok_or_else(|| not_bytes("KINDS", kinds))?;
    let types = hexadecimal::read_types(types, &kinds).ok_or_else(|| not_bytes("TYPES", types))?;
    let number: usize = field("ENTRY", entry)?;
    let entry = *Entry::ALL
        .get(number)
        .ok_or_else(|| format!("ENTRY is {number}, and there are 0 to 4"))?;
    let question = Question {
        cursor: field("CURSOR", cursor)?,
        base: field("BASE", base)?,
        flags: field("FLAGS", flags)?,
        start: field("START", start)?,
        word_kind: field("WORDKIND", word_kind)?,
        ..Question::new(entry, field("SLOTS", slots)?)
    };
    if question.slots > MOST_SLOTS + 1 {
        return Err(format!(
            "SLOTS is {slots}, and at most {} are asked about",
            MOST_SLOTS + 1
        ));
    }
    Ok((kinds, types, question))
}

/// A number of a question.
fn field<T: std::str::FromStr>(name: &str, text: &str) -> Result<T, String> {
    text.parse()
        .map_err(|_| format!("{name} is `{text}`, which is no number that it can have"))
}

fn not_bytes(name: &str, text: &str) -> String {
    format!("{name} is `{text}`, and not two hexadecimal digits a token, nor `-`")
}

/// `-` stands for as many zeros as there are kinds.
fn types_column(row: &Row<'_>) -> String {
    if row.types.len() == row.kinds.len() && row.types.iter().all(|&t| t == 0) {
        "-".into()
    } else {
        hexadecimal::written(row.types)
    }
}
