//! The second baseline of docs/PERFORMANCE.md: the same Rust in the form that document 01 names. Store, cache
//! and disk have steps that take `self`, the call and the offered records by value, and return answer and next
//! state. `byvalue ROUNDS` prints the line that `bench ROUNDS` prints.

mod cache;
mod disk;
mod layout;
mod operations;
mod script;
mod sector;
mod store;

use cache::{Cache, Call};
use disk::{Disk, DiskOp, Records};
use operations::Operation;
use sector::{Node, Table};
use store::{disk_op, Outcome, Store};

struct CacheOutcome {
    answer: u64,
    node: Node,
    cache: Cache,
}

struct CacheListOutcome {
    answer: u64,
    place: u64,
    cache: Cache,
}

struct DiskOutcome {
    answer: u64,
    disk: Disk,
}

impl Cache {
    fn step(mut self, device: u64, rule: u64, number: u64, q: Call) -> CacheOutcome {
        let answer = self.refusal(device, rule, number, &q);
        let node = if answer == 0 { self.apply(device, number, &q) } else { Node::default() };
        CacheOutcome { answer, node, cache: self }
    }

    fn list(mut self, device: u64, rule: u64, q: Call, list: &[Operation]) -> CacheListOutcome {
        let (answer, place) = self.operations(device, rule, &q, list);
        CacheListOutcome { answer, place, cache: self }
    }
}

impl Disk {
    fn next(mut self, device: u64, op: DiskOp, node: Node, table: Table) -> DiskOutcome {
        let answer = self.refusal(device, op, &node, &table);
        if answer == 0 {
            self.apply(device, op, &node, &table);
        }
        DiskOutcome { answer, disk: self }
    }

    fn after_crash(mut self, device: u64, offered: Records) -> DiskOutcome {
        let answer = self.crash_refusal(device, &offered);
        if answer == 0 {
            self.crash(&offered);
        }
        DiskOutcome { answer, disk: self }
    }
}

impl Store {
    /// The joined call: cache and disk step, and if either refuses, the store is handed back as it was.
    #[inline(never)]
    fn step(self, number: u64, q: Call, offered: Records) -> Outcome {
        let device = self.device;
        let a = self.cache.step(device, self.disk.rule, number, q);
        let b = if number == 18 {
            self.disk.after_crash(device, offered)
        } else {
            self.disk.next(device, disk_op(number, &q), q.node, q.table)
        };
        let answer = self.answer(number, &q, a.answer, b.answer);
        if answer != 0 {
            return Outcome { answer, node: Node::default(), store: self };
        }
        Outcome { answer: 0, node: a.node, store: Store { device, cache: a.cache, disk: b.disk } }
    }

    /// Step 20: the disk steps with no operation. The outcome and the place.
    #[inline(never)]
    fn operations(self, q: Call, list: &[Operation]) -> (Outcome, u64) {
        let device = self.device;
        let a = self.cache.list(device, self.disk.rule, q, list);
        let b = self.disk.next(device, DiskOp::None, q.node, q.table);
        let node = Node::default();
        if b.answer != 0 {
            return (Outcome { answer: b.answer, node, store: self }, 0);
        }
        if a.answer != 0 {
            return (Outcome { answer: a.answer, node, store: self }, a.place);
        }
        (Outcome { answer: 0, node, store: Store { device, cache: a.cache, disk: b.disk } }, 0)
    }
}

fn main() {
    script::run(
        |o, number, q, offered| {
            let offered = *offered.unwrap_or(&o.store.disk.records);
            *o = o.store.step(number, *q, offered);
        },
        |o, q, list| {
            let place;
            (*o, place) = o.store.operations(*q, list);
            place
        },
    );
}
