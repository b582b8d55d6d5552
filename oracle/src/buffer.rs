//! Room for nodes, used again for one parse after another.

use std::mem::MaybeUninit;

use crate::delta::parser::ParsingError;
use crate::delta::parser::parse_node::{NodeId, ParseNode, TokenId, U24};
use crate::node::kind_and_load;

/// Slots for nodes, with the count from which the next parse appends: the base.
///
/// The slots below the base hold marks, of a kind that no parse entry makes,
/// each with its own number, so that a change to any of them would be seen.
pub struct Buffer {
    /// Every slot is initialized from the start.
    pub(crate) room: Vec<MaybeUninit<ParseNode>>,
    /// How many of the slots a parse may use; the Rust panics beyond them.
    pub(crate) slots: usize,
    pub(crate) base: usize,
    pub(crate) count: usize,
    /// The slots below this one hold marks; it is at least the base.
    pub(crate) marked: usize,
    // A ParseBuffer wants these; no entry uses them.
    pub(crate) declarations: Vec<NodeId>,
    pub(crate) errors: Vec<ParsingError>,
}

/// Enough for any base that document 01 allows (131,075) and five nodes, the
/// most there are, for each of 65,535 tokens.
pub const WIDE: usize = 131_075 + 5 * 65_535;

const MARK_KIND: u8 = 13;

/// The mark for a slot: a Loop, which only statements make.
fn mark(slot: usize) -> ParseNode {
    ParseNode::Loop {
        token: TokenId(U24::new(slot)),
    }
}

impl Buffer {
    /// A buffer so wide that no row within document 01's limits fills it.
    pub fn wide() -> Buffer {
        Buffer::with_room(WIDE)
    }

    pub fn with_room(room: usize) -> Buffer {
        Buffer {
            room: (0..room).map(|i| MaybeUninit::new(mark(i))).collect(),
            slots: room,
            base: 0,
            count: 0,
            marked: room,
            declarations: Vec::new(),
            errors: Vec::new(),
        }
    }

    pub fn room(&self) -> usize {
        self.room.len()
    }

    pub fn slots(&self) -> usize {
        self.slots
    }

    pub fn base(&self) -> usize {
        self.base
    }

    /// Sets the count with which the next parses begin and how many slots
    /// they may use, and puts marks into the slots below the base.
    pub fn set(&mut self, base: usize, slots: usize) {
        assert!(base <= slots && slots <= self.room.len());
        for slot in self.marked..base {
            self.room[slot].write(mark(slot));
        }
        self.marked = self.marked.max(base);
        self.base = base;
        self.count = base;
        self.slots = slots;
    }

    /// The count after the latest parse.
    pub fn count(&self) -> usize {
        self.count
    }

    /// The node at a place below the count, as its kind and load.
    pub fn node(&self, place: usize) -> (u8, u32) {
        assert!(place < self.count);
        self.read(place)
    }

    /// The nodes that the latest parse appended.
    pub fn appended(&self) -> impl Iterator<Item = (u8, u32)> + '_ {
        (self.base..self.count).map(|place| self.read(place))
    }

    /// Whether the slots below the base still hold their marks.
    pub fn base_is_unchanged(&self) -> bool {
        (0..self.base).all(|slot| self.is_marked(slot))
    }

    /// Puts marks into all slots, for `rest_is_unchanged`.
    pub fn mark_all(&mut self) {
        for slot in 0..self.room.len() {
            self.room[slot].write(mark(slot));
        }
        self.marked = self.room.len();
    }

    /// After `mark_all` and one parse: whether the slots from the count on
    /// still hold their marks.
    pub fn rest_is_unchanged(&self) -> bool {
        (self.count..self.room.len()).all(|slot| self.is_marked(slot))
    }

    fn is_marked(&self, slot: usize) -> bool {
        self.read(slot) == (MARK_KIND, slot as u32)
    }

    fn read(&self, place: usize) -> (u8, u32) {
        // Safety: every slot is initialized when the buffer is made.
        kind_and_load(unsafe { self.room[place].assume_init() })
    }
}
