//! Refusal 34 is document 01's own: the Rust does not limit nesting. Here a
//! row is read by that paper's rules for nothing but the cursor and the number
//! of expressions and inner types that are open, to find where the one too
//! many begins. The judge holds each such reading to the Rust's parse of the
//! same row: they must end at the same token, both accepting or both refusing.

use crate::kind::*;
use crate::question::Entry;

#[derive(Debug, Clone, Copy, PartialEq, Eq)]
pub enum End {
    Accepted,
    Refused,
    /// One more is to begin, and as many as allowed are open.
    TooDeep,
}

/// How a reading ended, at which cursor, and how many were open at most.
#[derive(Debug, Clone, Copy, PartialEq, Eq)]
pub struct Reading {
    pub end: End,
    pub cursor: u32,
    pub deepest: u32,
}

/// Reads an entry's row from the cursor on, with at most `most` open.
pub fn read(entry: Entry, kinds: &[u8], cursor: u32, most: u32) -> Reading {
    let mut reader = Reader {
        kinds,
        cursor: cursor as usize,
        open: 0,
        deepest: 0,
        most,
    };
    let outcome = match entry {
        Entry::Expression => reader.expression(),
        Entry::Type => reader.inner_type(),
        Entry::Constant => reader.constant(),
        Entry::Struct => reader.struct_(),
        Entry::Word => reader.word(),
    };
    Reading {
        end: outcome.err().unwrap_or(End::Accepted),
        cursor: reader.cursor as u32,
        deepest: reader.deepest,
    }
}

struct Reader<'a> {
    kinds: &'a [u8],
    cursor: usize,
    open: u32,
    deepest: u32,
    most: u32,
}

type Step = Result<(), End>;

impl Reader<'_> {
    fn peek(&self) -> u8 {
        self.kinds
            .get(self.cursor)
            .copied()
            .unwrap_or(END_OF_SOURCE)
    }

    fn take(&mut self) -> u8 {
        let kind = self.peek();
        self.cursor += 1;
        kind
    }

    fn consume(&mut self, expected: u8) -> Step {
        if self.take() == expected {
            Ok(())
        } else {
            Err(End::Refused)
        }
    }

    fn optional(&mut self, expected: u8) -> bool {
        let found = self.peek() == expected;
        self.cursor += usize::from(found);
        found
    }

    /// For a colon that must be there but is not taken if it is another token.
    fn colon(&mut self) -> Step {
        if self.optional(COLON) {
            Ok(())
        } else {
            Err(End::Refused)
        }
    }

    /// An expression or an inner type, one level further in.
    fn nested(&mut self, inside: fn(&mut Self) -> Step) -> Step {
        if self.open == self.most {
            return Err(End::TooDeep);
        }
        self.open += 1;
        self.deepest = self.deepest.max(self.open);
        inside(self)?;
        self.open -= 1;
        Ok(())
    }

    fn expression(&mut self) -> Step {
        self.nested(Self::sum)
    }

    fn sum(&mut self) -> Step {
        self.product()?;
        loop {
            match self.peek() {
                PLUS | MINUS => {
                    self.take();
                    self.product()?;
                }
                PIPE | AMPERSAND | CARET => return self.rest_of_bitwise(),
                SHIFT_LEFT | SHIFT_RIGHT => {
                    self.take();
                    return self.unary();
                }
                _ => return Ok(()),
            }
        }
    }

    fn rest_of_bitwise(&mut self) -> Step {
        let operator = self.peek();
        while self.optional(operator) {
            self.unary()?;
        }
        Ok(())
    }

    fn product(&mut self) -> Step {
        self.singular()?;
        while matches!(self.peek(), TIMES | DIVIDE | MODULO) {
            self.take();
            self.singular()?;
        }
        Ok(())
    }

    fn singular(&mut self) -> Step {
        self.optional(CAST);
        self.unary()?;
        while self.optional(AS) {
            self.inner_type()?;
        }
        Ok(())
    }

    fn unary(&mut self) -> Step {
        match self.peek() {
            PIPE_FOR_TYPE => {
                self.take();
                self.inner_type()?;
                self.consume(PIPE)
            }
            PIPE => {
                self.take();
                self.ampersands(126)?;
                self.reference()?;
                self.consume(PIPE)
            }
            EXCLAMATION | MINUS => {
                self.take();
                self.primary()
            }
            _ => self.primary(),
        }
    }

    /// Further ampersands, at most so many.
    fn ampersands(&mut self, most: usize) -> Step {
        for _ in 0..most {
            if !self.optional(AMPERSAND) {
                return Ok(());
            }
        }
        if self.optional(AMPERSAND) {
            Err(End::Refused)
        } else {
            Ok(())
        }
    }

    /// A name and its steps.
    fn reference(&mut self) -> Step {
        self.consume(IDENTIFIER)?;
        self.steps()
    }

    /// At most 126 steps; after 127 it is over, even with none following.
    fn steps(&mut self) -> Step {
        for _ in 0..127 {
            if self.optional(BRACKET_LEFT) {
                self.expression()?;
                self.consume(BRACKET_RIGHT)?;
            } else if self.optional(DOT) {
                self.consume(IDENTIFIER)?;
            } else {
                return Ok(());
            }
        }
        Err(End::Refused)
    }

    fn primary(&mut self) -> Step {
        match self.take() {
            NAKED_DECIMAL | BIT_INTEGER | SUFFIXED_INTEGER | CHAR_LITERAL | BOOL_LITERAL => Ok(()),
            STRING_LITERAL => {
                while self.optional(STRING_LITERAL) {}
                Ok(())
            }
            AMPERSAND => {
                self.ampersands(126)?;
                self.reference()?;
                if self.optional(DOTS) {
                    self.expression()?;
                }
                Ok(())
            }
            IDENTIFIER if self.optional(PAREN_LEFT) => self.items(PAREN_RIGHT),
            IDENTIFIER if self.optional(BRACE_LEFT) => self.fields(),
            IDENTIFIER => self.steps(),
            BUILTIN => {
                self.consume(PAREN_LEFT)?;
                self.items(PAREN_RIGHT)
            }
            BRACKET_LEFT => self.items(BRACKET_RIGHT),
            PAREN_LEFT => {
                self.expression()?;
                self.consume(PAREN_RIGHT)
            }
            _ => Err(End::Refused),
        }
    }

    /// Arguments or elements.
    fn items(&mut self, close: u8) -> Step {
        while !self.optional(close) {
            self.expression()?;
            if !self.optional(COMMA) {
                return self.consume(close);
            }
        }
        Ok(())
    }

    fn fields(&mut self) -> Step {
        while !self.optional(BRACE_RIGHT) {
            self.consume(IDENTIFIER)?;
            if self.optional(COLON) {
                self.expression()?;
            }
            if !self.optional(COMMA) {
                return self.consume(BRACE_RIGHT);
            }
        }
        Ok(())
    }

    fn inner_type(&mut self) -> Step {
        self.nested(Self::rest_of_inner_type)
    }

    fn rest_of_inner_type(&mut self) -> Step {
        match self.take() {
            VALUE_TYPE_KEYWORD | IDENTIFIER => Ok(()),
            AMPERSAND => self.inner_type(),
            PAREN_LEFT => {
                self.inner_type()?;
                self.consume(PAREN_RIGHT)
            }
            BRACKET_LEFT => {
                self.size()?;
                self.inner_type()
            }
            _ => Err(End::Refused),
        }
    }

    fn size(&mut self) -> Step {
        match self.take() {
            BRACKET_RIGHT => Ok(()),
            NAKED_DECIMAL | IDENTIFIER | COLON | DOTS => self.consume(BRACKET_RIGHT),
            _ => Err(End::Refused),
        }
    }

    fn constant(&mut self) -> Step {
        self.consume(IDENTIFIER)?;
        self.colon()?;
        self.inner_type()?;
        self.consume(ASSIGNMENT)?;
        self.expression()?;
        self.consume(SEMICOLON)
    }

    fn struct_(&mut self) -> Step {
        self.consume(IDENTIFIER)?;
        if self.optional(SEMICOLON) {
            return Ok(());
        }
        self.members()
    }

    fn word(&mut self) -> Step {
        self.consume(IDENTIFIER)?;
        self.members()
    }

    fn members(&mut self) -> Step {
        self.consume(BRACE_LEFT)?;
        while !self.optional(BRACE_RIGHT) {
            self.consume(IDENTIFIER)?;
            self.colon()?;
            self.inner_type()?;
            if self.optional(BRACE_RIGHT) {
                return Ok(());
            }
            self.consume(COMMA)?;
        }
        Ok(())
    }
}
