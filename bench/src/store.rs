//! Cache and disk together, what a joined call hands back, and what both baselines ask in it.

use crate::cache::{Cache, Call, VersionOp};
use crate::disk::{Disk, DiskOp};
use crate::layout::Location;
use crate::sector::Node;

#[derive(Clone, Copy, Default)]
pub struct Store {
    pub device: u64,
    pub cache: Cache,
    pub disk: Disk,
}

/// The answer, the node of a read, and the store after the call.
#[derive(Clone, Copy, Default)]
pub struct Outcome {
    pub answer: u64,
    pub node: Node,
    pub store: Store,
}

/// The lower of two answers, of which 0 is no refusal.
fn lower(a: u64, b: u64) -> u64 {
    match (a, b) {
        (0, n) | (n, 0) => n,
        _ => a.min(b),
    }
}

/// What the disk is asked: a read takes no disk operation.
pub fn disk_op(number: u64, q: &Call) -> DiskOp {
    if number == 17 { DiskOp::None } else { q.dop }
}

impl Store {
    /// The joined answer, of the cache's and the disk's; a start that both accept needs a whole graph.
    pub fn answer(&self, number: u64, q: &Call, a: u64, b: u64) -> u64 {
        let n = lower(a, b);
        match q.vop {
            VersionOp::SendPersistentLoc(loc) if n == 0 && number == 10 => self.start_refusal(loc),
            _ => n,
        }
    }

    fn start_refusal(&self, loc: Location) -> u64 {
        if self.disk.records.whole_graph_at(self.device, loc) { 0 } else { 20 }
    }
}
