//! Random rows: what document 01 says of every reply holds of the Rust's, and
//! the Rust panics only where that paper says so. Run without `--release`,
//! the debug assertions in the Rust's own files take part.

use oracle::{Buffer, Cause, Entry, Question, Reply, Row};

struct Random(u64);

impl Random {
    fn below(&mut self, n: usize) -> usize {
        self.0 = self
            .0
            .wrapping_mul(6364136223846793005)
            .wrapping_add(1442695040888963407);
        ((self.0 >> 33) as usize) % n
    }

    fn one_of(&mut self, choices: &[u8]) -> u8 {
        choices[self.below(choices.len())]
    }
}

/// Appends tokens that mostly follow the reading rules.
struct Writer {
    random: Random,
    row: Vec<u8>,
}

impl Writer {
    fn put(&mut self, kinds: &[u8]) {
        self.row.extend(kinds);
    }

    fn expression(&mut self, room: usize) {
        self.singular(room);
        for _ in 0..self.random.below(3) {
            let operator = self
                .random
                .one_of(&[14, 15, 16, 17, 18, 14, 10, 9, 11, 28, 29]);
            self.put(&[operator]);
            self.singular(room);
        }
    }

    fn singular(&mut self, room: usize) {
        if self.random.below(12) == 0 {
            self.put(&[41]);
        }
        match self.random.below(16) {
            0 => {
                self.put(&[31]);
                self.inner_type(room);
                self.put(&[9]);
            }
            1 => {
                self.put(&[9]);
                self.ampersands(3);
                self.put(&[53]);
                self.steps(room);
                self.put(&[9]);
            }
            2 => self.put(&[12]),
            3 => self.put(&[15]),
            _ => {}
        }
        self.primary(room);
        while self.random.below(8) == 0 {
            self.put(&[42]);
            self.inner_type(room);
        }
    }

    fn ampersands(&mut self, few: usize) {
        let many = self.random.below(60) == 0;
        let n = self.random.below(if many { 132 } else { few });
        for _ in 0..n {
            self.put(&[10]);
        }
    }

    fn primary(&mut self, room: usize) {
        if room == 0 {
            let literal = self.random.one_of(&[55, 56, 57, 58, 59, 60, 53]);
            return self.put(&[literal]);
        }
        match self.random.below(12) {
            0 => self.put(&[60, 60, 60]),
            1 => {
                self.put(&[53, 1]);
                self.items(room, 2);
            }
            2 => {
                self.put(&[53, 3]);
                for _ in 0..self.random.below(3) {
                    self.put(&[53]);
                    if self.random.below(3) > 0 {
                        self.put(&[19]);
                        self.expression(room - 1);
                    }
                    self.put(&[22]);
                }
                self.put(&[4]);
            }
            3 => {
                self.put(&[54, 1]);
                self.items(room, 2);
            }
            4 => {
                self.put(&[10]);
                self.ampersands(3);
                self.put(&[53]);
                self.steps(room);
                if self.random.below(2) == 0 {
                    self.put(&[32]);
                    self.expression(room - 1);
                }
            }
            5 => {
                self.put(&[5]);
                self.items(room, 6);
            }
            6 => {
                self.put(&[1]);
                self.expression(room - 1);
                self.put(&[2]);
            }
            7 | 8 => {
                self.put(&[53]);
                self.steps(room);
            }
            _ => self.primary(0),
        }
    }

    fn items(&mut self, room: usize, end: u8) {
        for _ in 0..self.random.below(4) {
            self.expression(room - 1);
            if self.random.below(10) > 0 {
                self.put(&[22]);
            }
        }
        self.put(&[end]);
    }

    fn steps(&mut self, room: usize) {
        let many = self.random.below(100) == 0;
        for _ in 0..self.random.below(if many { 130 } else { 3 }) {
            if room > 0 && !many && self.random.below(2) == 0 {
                self.put(&[5]);
                self.expression(room - 1);
                self.put(&[6]);
            } else {
                self.put(&[21, 53]);
            }
        }
    }

    fn inner_type(&mut self, room: usize) {
        match self.random.below(if room == 0 { 2 } else { 8 }) {
            0 => self.put(&[52]),
            1 => self.put(&[53]),
            2 => {
                self.put(&[10]);
                self.inner_type(room - 1);
            }
            3 => {
                self.put(&[1]);
                self.inner_type(room - 1);
                self.put(&[2]);
            }
            4 => {
                self.put(&[5, 6]);
                self.inner_type(room - 1);
            }
            _ => {
                let size = self.random.one_of(&[55, 53, 19, 32]);
                self.put(&[5, size, 6]);
                self.inner_type(room - 1);
            }
        }
    }

    fn members(&mut self, room: usize) {
        self.put(&[3]);
        for _ in 0..self.random.below(4) {
            self.put(&[53, 19]);
            self.inner_type(room);
            if self.random.below(12) > 0 {
                self.put(&[22]);
            }
        }
        self.put(&[4]);
    }

    fn case(&mut self, entry: Entry) {
        let room = self.random.below(5);
        match entry {
            Entry::Expression => self.expression(room),
            Entry::Type => self.inner_type(room),
            Entry::Constant => {
                self.put(&[53, 19]);
                self.inner_type(room);
                self.put(&[23]);
                self.expression(room);
                self.put(&[20]);
            }
            Entry::Struct if self.random.below(6) == 0 => self.put(&[53, 20]),
            Entry::Struct | Entry::Word => {
                self.put(&[53]);
                self.members(room);
            }
        }
        // Sometimes a few tokens are changed, put in or taken out.
        if self.random.below(2) == 0 {
            for _ in 0..self.random.below(4) {
                let place = self.random.below(self.row.len() + 1);
                let kind = self.random.below(62) as u8;
                match self.random.below(3) {
                    0 => self.row.insert(place, kind),
                    1 if place < self.row.len() => self.row[place] = kind,
                    _ if place < self.row.len() && self.row.len() > 1 => {
                        self.row.remove(place);
                    }
                    _ => {}
                }
            }
        }
    }
}

#[test]
fn replies_are_as_document_01_says() {
    let cases = if cfg!(debug_assertions) {
        200_000
    } else {
        1_000_000
    };
    oracle::with_large_stack(|| {
        let mut writer = Writer {
            random: Random(1),
            row: Vec::new(),
        };
        let mut buffer = Buffer::wide();
        let mut accepted = [0u32; 5];
        let mut refused = [0u32; 25];
        let mut panicked = [0u32; 2];
        let mut most_per_token = 0.0f64;
        for case in 0..cases {
            writer.row.clear();
            let entry = Entry::ALL[case % 5];
            // Cursor and base are other than 0 in half of the cases.
            let cursor = if case % 2 == 0 {
                0
            } else {
                writer.random.below(4)
            };
            for _ in 0..cursor {
                let kind = writer.random.below(62) as u8;
                writer.put(&[kind]);
            }
            let before = std::mem::take(&mut writer.row);
            writer.case(entry);
            let kinds = [&before[..], &writer.row[..], &[0]].concat();
            let types: Vec<u8> = kinds
                .iter()
                .map(|_| writer.random.below(15) as u8)
                .collect();
            let row = Row::new(&kinds, &types).unwrap();
            let base = if case % 2 == 0 {
                0
            } else {
                writer.random.below(300) as u32
            };
            let question = Question {
                cursor: cursor as u32,
                base,
                // Few slots in some of the cases.
                slots: (case % 10 == 9).then(|| base + writer.random.below(20) as u32),
                flags: writer.random.below(32) as u8,
                start: writer.random.below(kinds.len()) as u32,
                word_kind: 47 + writer.random.below(5) as u8,
                ..Question::new(entry)
            };
            let reply = row.ask(&question, &mut buffer).unwrap();
            assert!(buffer.base_is_unchanged());
            let tokens = kinds.len() as u32;
            match reply {
                Reply::Accepted {
                    root,
                    cursor,
                    count,
                } => {
                    accepted[entry as usize] += 1;
                    assert!(root + 1 == count && cursor < tokens, "{kinds:?} {reply:?}");
                    assert!(cursor > question.cursor);
                    let consumed = cursor - question.cursor;
                    let per_token = f64::from(count - base) / f64::from(consumed);
                    most_per_token = most_per_token.max(per_token);
                    // No unfinished item is left.
                    assert!(buffer.appended().all(|(kind, _)| kind != 52));
                    assert!(oracle::nesting(entry, reply, &buffer).is_some());
                }
                Reply::Refused {
                    number,
                    start,
                    end,
                    cursor,
                    count: _,
                } => {
                    refused[number as usize] += 1;
                    assert!(end == start || number == 24);
                    assert!(start < tokens);
                    let expected = match number {
                        10..=21 => start + 1,
                        22 | 23 => start,
                        24 => end,
                        _ => panic!("{number}"),
                    };
                    assert_eq!(cursor, expected, "{kinds:?} {reply:?}");
                }
                Reply::Panicked {
                    cause: Cause::Slots,
                    count,
                    ..
                } => {
                    panicked[0] += 1;
                    assert_eq!(Some(count), question.slots);
                }
                Reply::Panicked {
                    cause: Cause::Unreachable,
                    cursor,
                    ..
                } => {
                    panicked[1] += 1;
                    // No comma after a member: refusal 25.
                    assert!(matches!(entry, Entry::Struct | Entry::Word));
                    assert_ne!(kinds[cursor as usize - 1], 22);
                }
                Reply::Panicked {
                    cause: Cause::Other,
                    ..
                } => {
                    panic!("{kinds:?} {question:?}");
                }
            }
        }
        // Each kind of reply occurred.
        println!("accepted, by entry: {accepted:?}");
        println!("refused, from 10: {:?}", &refused[10..]);
        println!("panicked, slots and comma: {panicked:?}");
        println!("most nodes a token when accepted: {most_per_token}");
        assert!(accepted.iter().all(|&n| n > 1_000));
        assert!(refused[10..].iter().all(|&n| n > 0));
        assert!(panicked.iter().all(|&n| n > 100));
    });
}
