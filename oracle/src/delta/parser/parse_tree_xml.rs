//! Stand-in for the missing `parse_tree_xml.rs`. It prints no XML; but as a
//! child of `parse_tree` it may make a `ParseBuffer` over any slots, with any
//! count.

use super::ParseBuffer;

impl crate::Buffer {
    /// The Rust's own buffer over these slots, its count being the base.
    #[inline]
    pub(in crate::delta::parser) fn open(&mut self) -> ParseBuffer<'_> {
        // What is appended from here on may overwrite marks.
        self.marked = self.base;
        ParseBuffer {
            // The invariant of ParseBuffer, that the nodes below its count
            // are initialized, holds because all slots are.
            num_nodes: self.base,
            nodes: &mut self.room[..self.slots],
            active_private_zone: None,
            declarations: &mut self.declarations,
            errors: &mut self.errors,
        }
    }
}
