//! The rows that are timed.

use oracle::Entry;

const COMMA: u8 = 22;
const IDENTIFIER: u8 = 53;
const NUMBER: u8 = 55;

/// The expressions and inner types that may be open at once.
const LEVELS: usize = oracle::MOST_OPEN as usize;

/// A token: its kind and value type.
type Token = (u8, u8);

/// Rows of one kind, all for one entry.
pub struct Case {
    pub name: String,
    pub entry: Entry,
    /// Kinds and value types of each row; EndOfSource ends it.
    pub rows: Vec<(Vec<u8>, Vec<u8>)>,
}

impl Case {
    fn new(name: String, entry: Entry, rows: Vec<Vec<Token>>) -> Case {
        let columns = |mut row: Vec<Token>| {
            row.push((0, 0));
            row.into_iter().unzip()
        };
        let rows = rows.into_iter().map(columns).collect();
        Case { name, entry, rows }
    }

    /// All tokens of all rows.
    pub fn tokens(&self) -> usize {
        self.rows.iter().map(|(kinds, _)| kinds.len()).sum()
    }
}

/// The rows that the goal speaks of.
pub fn goals() -> Vec<Case> {
    let mut cases = vec![
        sum(32_767),
        members(10_000),
        nested("39 parentheses", [1, 2], LEVELS - 1),
        call(20_000),
    ];
    for (rows, tokens) in [(200, 10), (50, 100), (10, 1_000), (1, 65_535)] {
        cases.push(mixed(Entry::Expression, rows, tokens));
    }
    cases.push(nested("arrays nested 38 deep", [5, 6], LEVELS - 2));
    cases
}

/// Rows of the other entries, which the goal does not name.
pub fn others() -> Vec<Case> {
    let entries = [Entry::Type, Entry::Constant, Entry::Struct, Entry::Word];
    let case = |tokens| entries.map(|entry| mixed(entry, 50, tokens));
    [10, 100].into_iter().flat_map(case).collect()
}

/// Four kinds of rows, each in ten sizes from 1,000 tokens to the most.
pub fn sizes() -> Vec<Vec<Case>> {
    const SIZES: [usize; 10] = [
        1_000, 2_000, 4_000, 8_000, 16_000, 24_000, 32_000, 40_000, 52_000, 65_535,
    ];
    let of = |case: fn(usize) -> Case| SIZES.map(case).into();
    vec![
        of(|tokens| sum(tokens / 2)),
        of(|tokens| call((tokens - 3) / 2)),
        of(|tokens| members((tokens - 4) / 4)),
        of(|tokens| mixed(Entry::Expression, 1, tokens)),
    ]
}

/// What nests as deep as is accepted, each by other tokens, expressions and types; and what nests
/// one level deeper, which ours refuses.
pub fn deep() -> Vec<Case> {
    let levels: [(&str, &[u8], &[u8]); 6] = [
        ("parentheses", &[1], &[2]),
        ("arrays", &[5], &[6]),
        ("calls", &[IDENTIFIER, 1], &[2]),
        ("structs", &[IDENTIFIER, 3, IDENTIFIER, 19], &[4]),
        ("steps `a[`", &[IDENTIFIER, 5], &[6]),
        ("pointers `&a ..`", &[10, IDENTIFIER, 32], &[]),
    ];
    let case = |name: String, entry, open: &[u8], inside, close: &[u8], levels| {
        let kinds = [open.repeat(levels), vec![inside], close.repeat(levels)].concat();
        Case::new(
            name,
            entry,
            vec![kinds.into_iter().map(|kind| (kind, 0)).collect()],
        )
    };
    let mut cases: Vec<Case> = Vec::new();
    for (name, open, close) in levels {
        cases.push(case(
            format!("39 {name}"),
            Entry::Expression,
            open,
            NUMBER,
            close,
            LEVELS - 1,
        ));
    }
    cases.push(case(
        "39 `&` of a type".into(),
        Entry::Type,
        &[10],
        52,
        &[],
        LEVELS - 1,
    ));
    let refused = "40 parentheses, refused by ours".into();
    cases.push(case(refused, Entry::Expression, &[1], NUMBER, &[2], LEVELS));
    cases.push(case(
        "a number".into(),
        Entry::Expression,
        &[],
        NUMBER,
        &[],
        0,
    ));
    cases
}

/// `1 + 1 + 1 ..`
fn sum(terms: usize) -> Case {
    let mut row = [(NUMBER, 0), (14, 0)].repeat(terms);
    row.pop();
    Case::new(
        format!("sum of {terms} terms"),
        Entry::Expression,
        vec![row],
    )
}

/// `f(1, 1, 1 ..)`
fn call(arguments: usize) -> Case {
    let mut row = vec![(IDENTIFIER, 0), (1, 0)];
    row.extend([(NUMBER, 0), (COMMA, 0)].repeat(arguments));
    row.pop();
    row.push((2, 0));
    let name = format!("call with {arguments} arguments");
    Case::new(name, Entry::Expression, vec![row])
}

/// `S { m: i32, m: i32, .. }`
fn members(members: usize) -> Case {
    let mut row = vec![(IDENTIFIER, 0), (3, 0)];
    row.extend([(IDENTIFIER, 0), (19, 0), (52, 4), (COMMA, 0)].repeat(members));
    row.push((4, 0));
    Case::new(
        format!("struct of {members} members"),
        Entry::Struct,
        vec![row],
    )
}

/// `((1))`, or other brackets.
fn nested(name: &str, [open, close]: [u8; 2], levels: usize) -> Case {
    let mut row = vec![(open, 0); levels];
    row.push((NUMBER, 0));
    row.extend(vec![(close, 0); levels]);
    Case::new(name.into(), Entry::Expression, vec![row])
}

/// So many rows from the grammar, each of so many tokens with EndOfSource.
fn mixed(entry: Entry, rows: usize, tokens: usize) -> Case {
    let row = |seed| {
        let mut writer = Writer {
            random: 1 + seed as u64,
            row: Vec::new(),
        };
        writer.entry(entry, tokens - 1);
        assert_eq!(writer.row.len(), tokens - 1);
        writer.row
    };
    let name = match entry {
        Entry::Expression => "mixed",
        Entry::Type => "mixed type",
        Entry::Constant => "mixed constant",
        Entry::Struct => "mixed struct",
        Entry::Word => "mixed word",
    };
    Case::new(
        format!("{name}, {tokens} tokens"),
        entry,
        (0..rows).map(row).collect(),
    )
}

/// Writes what the reading rules accept, in exactly so many tokens.
struct Writer {
    random: u64,
    row: Vec<Token>,
}

impl Writer {
    fn below(&mut self, limit: usize) -> usize {
        self.random = self
            .random
            .wrapping_mul(6_364_136_223_846_793_005)
            .wrapping_add(1_442_695_040_888_963_407);
        (self.random >> 33) as usize % limit
    }

    fn once_in(&mut self, times: usize) -> bool {
        self.below(times) == 0
    }

    /// A size for a part of what has so many tokens: from 1 to 24.
    fn part(&mut self, tokens: usize) -> usize {
        1 + self.below(tokens.min(24))
    }

    fn push(&mut self, kind: u8) {
        self.row.push((kind, 0));
    }

    fn push_one_of(&mut self, kinds: &[u8]) {
        let kind = kinds[self.below(kinds.len())];
        // ValueTypeKeyword and SuffixedInteger have a value type.
        let value_type = if matches!(kind, 52 | 57) {
            1 + self.below(14)
        } else {
            0
        };
        self.row.push((kind, value_type as u8));
    }

    fn entry(&mut self, entry: Entry, tokens: usize) {
        match entry {
            Entry::Expression => self.expression(tokens),
            Entry::Type => self.inner_type(tokens),
            Entry::Constant => {
                let size = self.part(3);
                self.row.extend([(IDENTIFIER, 0), (19, 0)]);
                self.inner_type(size);
                self.push(23);
                self.expression(tokens - 4 - size);
                self.push(20);
            }
            Entry::Struct | Entry::Word => {
                self.row.extend([(IDENTIFIER, 0), (3, 0)]);
                let mut left = tokens - 3;
                while left > 0 {
                    // A member has at least four tokens.
                    let most = if left < 8 {
                        left
                    } else {
                        4 + self.below(5).min(left - 8)
                    };
                    self.row.extend([(IDENTIFIER, 0), (19, 0)]);
                    self.inner_type(most - 3);
                    self.push(COMMA);
                    left -= most;
                }
                self.push(4);
            }
        }
    }

    fn expression(&mut self, tokens: usize) {
        if tokens >= 3 && self.once_in(10) {
            let left = self.part(tokens - 2);
            self.unary(left);
            self.push_one_of(&[10, 9, 11, 28, 29]);
            self.unary(tokens - 1 - left);
        } else {
            self.joined(tokens, &[14, 15], |writer, tokens| {
                writer.joined(tokens, &[16, 17, 18], Writer::singular);
            });
        }
    }

    /// Operands with operators between them.
    fn joined(&mut self, tokens: usize, operators: &[u8], operand: fn(&mut Writer, usize)) {
        let mut left = tokens;
        while left >= 3 && self.once_in(3) {
            let size = self.part(left - 2);
            operand(self, size);
            self.push_one_of(operators);
            left -= size + 1;
        }
        operand(self, left);
    }

    fn singular(&mut self, tokens: usize) {
        if tokens >= 2 && self.once_in(20) {
            self.push(41);
            self.unary(tokens - 1);
        } else if tokens >= 3 && self.once_in(6) {
            let size = self.part((tokens - 2).min(3));
            self.unary(tokens - 1 - size);
            self.push(42);
            self.inner_type(size);
        } else {
            self.unary(tokens);
        }
    }

    fn unary(&mut self, tokens: usize) {
        match self.below(16) {
            0 | 1 if tokens >= 2 => {
                self.push_one_of(&[12, 15]);
                self.primary(tokens - 1);
            }
            2 if (3..30).contains(&tokens) => {
                self.push(9);
                self.reference(tokens - 2);
                self.push(9);
            }
            3 if (3..30).contains(&tokens) => {
                self.push(31);
                self.inner_type(tokens - 2);
                self.push(9);
            }
            _ => self.primary(tokens),
        }
    }

    fn primary(&mut self, tokens: usize) {
        if tokens == 1 {
            let literals = [
                55, 55, 55, 55, 55, 56, 57, 57, 58, 59, 60, IDENTIFIER, IDENTIFIER,
            ];
            return self.push_one_of(&literals);
        }
        match self.below(8) {
            0 | 1 if tokens >= 3 => {
                self.push_one_of(&[IDENTIFIER, IDENTIFIER, 54]);
                self.push(1);
                self.items(tokens - 3);
                self.push(2);
            }
            2 if tokens >= 3 => {
                self.row.extend([(IDENTIFIER, 0), (3, 0)]);
                self.fields(tokens - 3);
                self.push(4);
            }
            3 if (3..100).contains(&tokens) => {
                self.push(1);
                self.expression(tokens - 2);
                self.push(2);
            }
            4 | 5 if tokens < 30 => self.reference(tokens),
            6 if tokens < 5 => self.row.extend(vec![(60, 0); tokens]),
            _ => {
                self.push(5);
                self.items(tokens - 2);
                self.push(6);
            }
        }
    }

    /// Expressions with commas between them, and sometimes after the last.
    fn items(&mut self, tokens: usize) {
        let mut left = tokens;
        while left > 0 {
            let size = self.part(left);
            self.expression(size);
            left -= size;
            if left > 0 {
                self.push(COMMA);
                left -= 1;
            }
        }
    }

    fn fields(&mut self, tokens: usize) {
        let mut left = tokens;
        while left > 0 {
            // A name alone, or with a colon and an expression.
            let size = match self.part(left) {
                2 => 1,
                size => size,
            };
            self.push(IDENTIFIER);
            if size > 1 {
                self.push(19);
                self.expression(size - 2);
            }
            left -= size;
            if left > 0 {
                self.push(COMMA);
                left -= 1;
            }
        }
    }

    /// Ampersands, a name and steps. A step has at least two tokens.
    fn reference(&mut self, tokens: usize) {
        let mut left = tokens - 1;
        while left == 1 || left > 0 && self.once_in(3) {
            self.push(10);
            left -= 1;
        }
        self.push(IDENTIFIER);
        while left > 0 {
            if left == 3 || left > 4 && self.once_in(2) {
                // Two tokens or more are left, or none.
                let size = match self.part(left - 2) {
                    size if left - 2 - size == 1 => size + 1,
                    size => size,
                };
                self.push(5);
                self.expression(size);
                self.push(6);
                left -= size + 2;
            } else {
                self.row.extend([(21, 0), (IDENTIFIER, 0)]);
                left -= 2;
            }
        }
    }

    fn inner_type(&mut self, tokens: usize) {
        self.inner_type_within(tokens, LEVELS);
    }

    /// An inner type of at most so many levels. Where an ampersand would leave too few, the longest
    /// opening is taken.
    fn inner_type_within(&mut self, tokens: usize, levels: usize) {
        let tight = tokens >= 3 * (levels - 1);
        match self.below(4) {
            _ if tokens == 1 => self.push_one_of(&[52, 52, IDENTIFIER]),
            choice if tokens >= 4 && (tight || choice == 0) => {
                self.push(5);
                self.push_one_of(&[55, IDENTIFIER, 19, 32]);
                self.push(6);
                self.inner_type_within(tokens - 3, levels - 1);
            }
            choice if tokens >= 3 && (tight || choice == 1) => {
                self.row.extend([(5, 0), (6, 0)]);
                self.inner_type_within(tokens - 2, levels - 1);
            }
            2 if tokens >= 3 => {
                self.push(1);
                self.inner_type_within(tokens - 2, levels - 1);
                self.push(2);
            }
            _ => {
                self.push(10);
                self.inner_type_within(tokens - 1, levels - 1);
            }
        }
    }
}
