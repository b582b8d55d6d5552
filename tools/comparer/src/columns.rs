//! The node columns that are lent to the parser, with what they held before.

use std::ops::Range;

use crate::question::{MOST_SLOTS, Question};

/// Slots on both sides of those that are lent.
const GUARD: usize = 64;

/// One more slot than document 01 allows can be lent.
const ROOM: usize = MOST_SLOTS as usize + 1;

/// Before each parse every slot holds a mark of its own: a kind and a load
/// that no parse writes.
pub struct Columns {
    kinds: Vec<u8>,
    loads: Vec<u32>,
    marked_kinds: Vec<u8>,
    marked_loads: Vec<u32>,
}

/// A slot of either column that was written and should not have been.
#[derive(Debug, Clone, Copy, PartialEq, Eq)]
pub enum Changed {
    /// The slot's number; below 0 it stands before the columns.
    Kind(i64),
    Load(i64),
}

impl Columns {
    pub fn new() -> Columns {
        let all = GUARD + ROOM + GUARD;
        let marked_kinds: Vec<u8> = (0..all).map(|place| 128 + (place % 128) as u8).collect();
        let marked_loads: Vec<u32> = (0..all).map(|place| 4_000_000_000 + place as u32).collect();
        Columns {
            kinds: marked_kinds.clone(),
            loads: marked_loads.clone(),
            marked_kinds,
            marked_loads,
        }
    }

    /// The columns for a question.
    pub fn lend(&mut self, question: &Question) -> (&mut [u8], &mut [u32]) {
        (
            &mut self.kinds[GUARD..][..question.slots as usize],
            &mut self.loads[GUARD..][..question.load_slots as usize],
        )
    }

    /// The node in a slot.
    pub fn node(&self, slot: u32) -> (u8, u32) {
        let place = GUARD + slot as usize;
        (self.kinds[place], self.loads[place])
    }

    /// The slots of the appended nodes, as places in the vectors. Where there
    /// are none the base may lie anywhere.
    fn appended(question: &Question, nodes: usize) -> Range<usize> {
        if nodes == 0 {
            return GUARD..GUARD;
        }
        let base = GUARD + question.base as usize;
        base..base + nodes
    }

    /// The first slot outside the appended nodes that does not hold its mark:
    /// of those lent for the question and of the guards before and after them.
    pub fn changed(&self, question: &Question, nodes: usize) -> Option<Changed> {
        let Range { start, end } = Self::appended(question, nodes);
        let after = |slots: u32| end..GUARD + slots as usize + GUARD;
        let number = |place: usize| place as i64 - GUARD as i64;
        for range in [0..start, after(question.slots)] {
            if let Some(place) = first_unequal(&self.kinds, &self.marked_kinds, range) {
                return Some(Changed::Kind(number(place)));
            }
        }
        for range in [0..start, after(question.load_slots)] {
            if let Some(place) = first_unequal(&self.loads, &self.marked_loads, range) {
                return Some(Changed::Load(number(place)));
            }
        }
        None
    }

    /// Puts the marks back where nodes were appended.
    pub fn restore(&mut self, question: &Question, nodes: usize) {
        let slots = Self::appended(question, nodes);
        self.kinds[slots.clone()].copy_from_slice(&self.marked_kinds[slots.clone()]);
        self.loads[slots.clone()].copy_from_slice(&self.marked_loads[slots]);
    }

    /// Puts all marks back.
    pub fn restore_all(&mut self) {
        self.kinds.copy_from_slice(&self.marked_kinds);
        self.loads.copy_from_slice(&self.marked_loads);
    }
}

impl Default for Columns {
    fn default() -> Columns {
        Columns::new()
    }
}

fn first_unequal<T: PartialEq>(column: &[T], marks: &[T], range: Range<usize>) -> Option<usize> {
    // The comparison of whole slices is the fast one.
    if column[range.clone()] == marks[range.clone()] {
        return None;
    }
    range
        .into_iter()
        .find(|&place| column[place] != marks[place])
}

#[cfg(test)]
mod tests {
    use super::*;
    use crate::question::Entry;

    #[test]
    fn a_slot_outside_the_columns_is_seen() {
        let question = Question::new(Entry::Type, 10);
        for (place, slot) in [(0, -64), (GUARD - 1, -1), (GUARD + 10, 10)] {
            let mut columns = Columns::new();
            assert_eq!(columns.changed(&question, 0), None);
            columns.kinds[place] = 0;
            assert_eq!(columns.changed(&question, 0), Some(Changed::Kind(slot)));
            columns.restore_all();
            columns.loads[place] = 0;
            assert_eq!(columns.changed(&question, 0), Some(Changed::Load(slot)));
        }
    }

    #[test]
    fn appended_nodes_are_no_change_and_are_put_back() {
        let question = Question {
            base: 2,
            ..Question::new(Entry::Type, 10)
        };
        let mut columns = Columns::new();
        let (kinds, loads) = columns.lend(&question);
        kinds[2..4].fill(41);
        loads[2..4].fill(7);
        assert_eq!(columns.changed(&question, 2), None);
        assert_eq!(columns.changed(&question, 1), Some(Changed::Kind(3)));
        columns.restore(&question, 2);
        assert_eq!(columns.changed(&question, 0), None);
    }
}
