//! Random rows, by the comparer's writer.

pub use comparer::grammar::Writer;
pub use comparer::random::Random;
use oracle::Entry;

/// Numbers that are the same in each run, others for each seed.
pub fn random(seed: u64) -> Random {
    Random::new(seed, 0, 0)
}

/// Appends what the entry reads, every second time with a few tokens changed.
pub fn write_row(writer: &mut Writer, entry: Entry) {
    let room = writer.random.below(5);
    writer.kinds.clear();
    writer.entry(entry, room);
    if writer.random.once_in(2) {
        writer.damage(0);
    }
}
