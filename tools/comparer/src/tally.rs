//! What was compared, counted.

/// Refusal numbers are below this.
const NUMBERS: usize = 37;

#[derive(Debug, Clone, PartialEq, Eq)]
pub struct Tally {
    /// Rows of tokens.
    pub rows: u64,
    /// Questions about them, each one comparison.
    pub questions: u64,
    /// Questions by refusal number; 0 is acceptance.
    pub by_number: [u64; NUMBERS],
    /// Appended nodes that were compared.
    pub nodes: u64,
    pub differences: u64,
}

impl Tally {
    pub fn new() -> Tally {
        Tally {
            rows: 0,
            questions: 0,
            by_number: [0; NUMBERS],
            nodes: 0,
            differences: 0,
        }
    }

    pub fn count(&mut self, number: u32, nodes: usize) {
        self.questions += 1;
        self.by_number[number as usize] += 1;
        self.nodes += nodes as u64;
    }

    pub fn add(&mut self, other: &Tally) {
        self.rows += other.rows;
        self.questions += other.questions;
        self.nodes += other.nodes;
        self.differences += other.differences;
        for (sum, more) in self.by_number.iter_mut().zip(other.by_number) {
            *sum += more;
        }
    }

    pub fn accepted(&self) -> u64 {
        self.by_number[0]
    }

    pub fn refused(&self) -> u64 {
        self.by_number[1..].iter().sum()
    }
}

impl Default for Tally {
    fn default() -> Tally {
        Tally::new()
    }
}
