//! Kind 0F: the live cells get the ids 1 to n in the order they have.

use crate::editor::{Edit, Editor};

impl Editor<'_> {
    pub fn renumber(&mut self) -> Edit {
        let old: Vec<u32> = self.drawing.cells.iter().map(|cell| cell.id).collect();
        // The new id says how many of the old ones are not above.
        self.drawing.rename(|id| old.partition_point(|&live| live <= id) as u32);
        self.drawing.next = old.len() as u32 + 1;
        self.done(0, 0)
    }
}
