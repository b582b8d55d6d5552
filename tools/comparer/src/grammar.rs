//! Rows that follow the reading rules, and damage done to rows.

use crate::kind::*;
use crate::question::Entry;
use crate::random::Random;

/// Writes tokens by the reading rules, with random choices.
pub struct Writer {
    pub random: Random,
    pub kinds: Vec<u8>,
    /// Whether now and then a list has many items.
    pub long_lists: bool,
    /// Whether the last member has a comma too.
    pub last_comma: bool,
}

const LITERALS: [u8; 6] = [
    NAKED_DECIMAL,
    BIT_INTEGER,
    SUFFIXED_INTEGER,
    CHAR_LITERAL,
    BOOL_LITERAL,
    STRING_LITERAL,
];

const OPERATORS: [u8; 12] = [
    PLUS,
    MINUS,
    PLUS,
    TIMES,
    DIVIDE,
    MODULO,
    TIMES,
    AMPERSAND,
    PIPE,
    CARET,
    SHIFT_LEFT,
    SHIFT_RIGHT,
];

impl Writer {
    pub fn new(random: Random) -> Writer {
        Writer {
            random,
            kinds: Vec::new(),
            long_lists: false,
            last_comma: true,
        }
    }

    fn put(&mut self, kinds: &[u8]) {
        self.kinds.extend(kinds);
    }

    fn put_times(&mut self, kind: u8, times: usize) {
        self.kinds.extend(std::iter::repeat_n(kind, times));
    }

    /// What an entry reads, with at most `room` nested inside.
    pub fn entry(&mut self, entry: Entry, room: usize) {
        match entry {
            Entry::Expression => self.expression(room),
            Entry::Type => self.inner_type(room),
            Entry::Constant => {
                self.put(&[IDENTIFIER, COLON]);
                self.inner_type(room);
                self.put(&[ASSIGNMENT]);
                self.expression(room);
                self.put(&[SEMICOLON]);
            }
            Entry::Struct if self.random.once_in(8) => self.put(&[IDENTIFIER, SEMICOLON]),
            Entry::Struct | Entry::Word => {
                self.put(&[IDENTIFIER]);
                self.members(room);
            }
        }
    }

    pub fn expression(&mut self, room: usize) {
        self.singular(room);
        let joined = self.few(room);
        for _ in 0..joined {
            let operator = self.random.one_of(&OPERATORS);
            self.put(&[operator]);
            self.singular(room);
        }
    }

    /// How many items a list has: below `most`, or now and then many.
    fn times(&mut self, most: usize) -> usize {
        if self.long_lists && self.random.once_in(1_000) {
            return self.random.below(100);
        }
        self.random.below(most)
    }

    /// How many more operands follow one: mostly none or few.
    fn few(&mut self, room: usize) -> usize {
        match self.random.below(8) {
            0..=3 => 0,
            4 | 5 => 1,
            6 => 2,
            _ => self.times(if room > 2 { 3 } else { 6 }),
        }
    }

    fn singular(&mut self, room: usize) {
        if self.random.once_in(12) {
            self.put(&[CAST]);
        }
        self.unary(room);
        while self.random.once_in(8) {
            self.put(&[AS]);
            self.inner_type(room);
        }
    }

    fn unary(&mut self, room: usize) {
        match self.random.below(16) {
            0 => {
                self.put(&[PIPE_FOR_TYPE]);
                self.inner_type(room);
                self.put(&[PIPE]);
            }
            1 => {
                self.put(&[PIPE]);
                self.ampersands(3);
                self.put(&[IDENTIFIER]);
                self.steps(room);
                self.put(&[PIPE]);
            }
            2 => {
                self.put(&[EXCLAMATION]);
                self.primary(room);
            }
            3 => {
                self.put(&[MINUS]);
                self.primary(room);
            }
            _ => self.primary(room),
        }
    }

    /// Fewer than `most` ampersands, and now and then about as many as allowed.
    fn ampersands(&mut self, most: usize) {
        let times = if self.random.once_in(200) {
            122 + self.random.below(8)
        } else {
            self.random.below(most)
        };
        self.put_times(AMPERSAND, times);
    }

    fn primary(&mut self, room: usize) {
        if room == 0 {
            return self.leaf();
        }
        match self.random.below(12) {
            0 => {
                let times = 2 + self.random.below(3);
                self.put_times(STRING_LITERAL, times);
            }
            1 => {
                self.put(&[IDENTIFIER, PAREN_LEFT]);
                self.items(room, PAREN_RIGHT);
            }
            2 => {
                self.put(&[IDENTIFIER, BRACE_LEFT]);
                self.fields(room);
            }
            3 => {
                self.put(&[BUILTIN, PAREN_LEFT]);
                self.items(room, PAREN_RIGHT);
            }
            4 => self.address(room),
            5 => {
                self.put(&[BRACKET_LEFT]);
                self.items(room, BRACKET_RIGHT);
            }
            6 => {
                self.put(&[PAREN_LEFT]);
                self.expression(room - 1);
                self.put(&[PAREN_RIGHT]);
            }
            7 | 8 => {
                self.put(&[IDENTIFIER]);
                self.steps(room);
            }
            _ => self.leaf(),
        }
    }

    fn leaf(&mut self) {
        let kind = if self.random.once_in(4) {
            IDENTIFIER
        } else {
            self.random.one_of(&LITERALS)
        };
        self.put(&[kind]);
    }

    fn address(&mut self, room: usize) {
        self.put(&[AMPERSAND]);
        self.ampersands(3);
        self.put(&[IDENTIFIER]);
        self.steps(room);
        if self.random.once_in(2) {
            self.put(&[DOTS]);
            self.expression(room - 1);
        }
    }

    fn items(&mut self, room: usize, close: u8) {
        let times = self.times(4);
        for left in (0..times).rev() {
            self.expression(room - 1);
            self.comma(left);
        }
        self.put(&[close]);
    }

    /// The comma between two items, and sometimes one after the last.
    fn comma(&mut self, left: usize) {
        if left > 0 || self.random.once_in(2) {
            self.put(&[COMMA]);
        }
    }

    fn fields(&mut self, room: usize) {
        let times = self.times(4);
        for left in (0..times).rev() {
            self.put(&[IDENTIFIER]);
            if !self.random.once_in(3) {
                self.put(&[COLON]);
                self.expression(room - 1);
            }
            self.comma(left);
        }
        self.put(&[BRACE_RIGHT]);
    }

    fn steps(&mut self, room: usize) {
        if self.random.once_in(300) {
            let times = 122 + self.random.below(8);
            for _ in 0..times {
                self.put(&[DOT, IDENTIFIER]);
            }
            return;
        }
        let times = self.random.below(3);
        for _ in 0..times {
            if room > 0 && self.random.once_in(2) {
                self.put(&[BRACKET_LEFT]);
                self.expression(room - 1);
                self.put(&[BRACKET_RIGHT]);
            } else {
                self.put(&[DOT, IDENTIFIER]);
            }
        }
    }

    pub fn inner_type(&mut self, room: usize) {
        match self.random.below(if room == 0 { 2 } else { 8 }) {
            0 => self.put(&[VALUE_TYPE_KEYWORD]),
            1 => self.put(&[IDENTIFIER]),
            2 => {
                self.put(&[AMPERSAND]);
                self.inner_type(room - 1);
            }
            3 => {
                self.put(&[PAREN_LEFT]);
                self.inner_type(room - 1);
                self.put(&[PAREN_RIGHT]);
            }
            4 => {
                self.put(&[BRACKET_LEFT, BRACKET_RIGHT]);
                self.inner_type(room - 1);
            }
            _ => {
                let size = self
                    .random
                    .one_of(&[NAKED_DECIMAL, IDENTIFIER, COLON, DOTS]);
                self.put(&[BRACKET_LEFT, size, BRACKET_RIGHT]);
                self.inner_type(room - 1);
            }
        }
    }

    fn members(&mut self, room: usize) {
        self.put(&[BRACE_LEFT]);
        let times = self.times(5);
        for left in (0..times).rev() {
            self.put(&[IDENTIFIER, COLON]);
            self.inner_type(room);
            if self.last_comma || left > 0 {
                self.put(&[COMMA]);
            }
        }
        self.put(&[BRACE_RIGHT]);
    }

    /// Any tokens.
    pub fn any(&mut self, times: usize) {
        for _ in 0..times {
            let kind = self.random.below(62) as u8;
            self.kinds.push(kind);
        }
    }

    /// A few changes from `from` on: tokens put in, changed, taken out,
    /// doubled, exchanged, or the rest cut off.
    pub fn damage(&mut self, from: usize) {
        let times = 1 + self.random.below(3);
        for _ in 0..times {
            self.damage_once(from);
        }
    }

    fn damage_once(&mut self, from: usize) {
        let length = self.kinds.len() - from;
        let kind = self.any_likely();
        if length == 0 {
            return self.kinds.push(kind);
        }
        let place = from + self.random.below(length);
        match self.random.below(9) {
            0 | 1 => self.kinds.insert(place, kind),
            2 | 3 => self.kinds[place] = kind,
            4 | 5 => {
                self.kinds.remove(place);
            }
            6 => self.kinds.insert(place, self.kinds[place]),
            7 => {
                let other = from + self.random.below(length);
                self.kinds.swap(place, other);
            }
            _ => self.kinds.truncate(place),
        }
    }

    /// Any token, but more often one that the rules name.
    fn any_likely(&mut self) -> u8 {
        const NAMED: [u8; 33] = [
            1, 2, 3, 4, 5, 6, 9, 10, 11, 12, 14, 15, 16, 19, 20, 21, 22, 23, 28, 29, 31, 32, 41,
            42, 52, 53, 54, 55, 56, 57, 58, 59, 60,
        ];
        if self.random.once_in(3) {
            self.random.below(62) as u8
        } else {
            self.random.one_of(&NAMED)
        }
    }
}
