//! Step 20: a lent list of operations, each in turn as Dirty or Alloc on the cache left by those before.

use crate::cache::{first, Cache, Call};
use crate::sector::{Entry, Node, Slot};

/// An alloc, else a write, of a node under a reference.
#[derive(Clone, Copy)]
pub struct Operation {
    pub alloc: bool,
    pub reference: u64,
    pub node: Node,
}

impl Cache {
    /// Dirty's own conditions.
    pub fn dirty_refusal(&self, r: usize, node: &Node) -> u64 {
        first!(
            8: !self.nodes.slots[r].present || !self.ephemeral.entries[r].allocated,
            11: self.fz(r),
            13: !self.ephemeral.points_within(&node.succs),
        );
        0
    }

    /// Alloc's own conditions.
    pub fn alloc_refusal(&self, r: usize, node: &Node) -> u64 {
        first!(
            8: self.nodes.slots[r].present || self.ephemeral.entries[r].allocated,
            13: !self.ephemeral.points_within(&node.succs),
        );
        0
    }

    /// What Dirty and Alloc leave, but for the marks.
    pub fn put(&mut self, r: usize, node: &Node) {
        self.ephemeral.set(r, Entry { allocated: true, succs: node.succs, ..Entry::default() });
        self.nodes.set(r, Slot { present: true, node: *node });
    }

    fn operation_refusal(&self, o: &Operation) -> u64 {
        first!(1: o.reference > 63 || !o.node.form());
        let r = o.reference as usize;
        if o.alloc { self.alloc_refusal(r, &o.node) } else { self.dirty_refusal(r, &o.node) }
    }

    /// The answer and the place of the operation that failed. The written form is judged before the first operation
    /// and the marks are made after the last; where one fails, the two parts that `put` changes are set back.
    pub fn operations(&mut self, device: u64, rule: u64, q: &Call, list: &[Operation]) -> (u64, u64) {
        let n = self.refusal(device, rule, 20, q);
        if n != 0 {
            return (n, 0);
        }
        if list.len() > 32 {
            return (24, 0);
        }
        let (ephemeral, nodes) = (self.ephemeral, self.nodes);
        for (place, o) in list.iter().enumerate() {
            let n = self.operation_refusal(o);
            if n != 0 {
                (self.ephemeral, self.nodes) = (ephemeral, nodes);
                return (n, place as u64);
            }
            self.put(o.reference as usize, &o.node);
        }
        self.renew_marks(device);
        (0, 0)
    }
}
