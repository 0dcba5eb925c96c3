//! The first baseline of docs/PERFORMANCE.md: the script of crates/bench on plain Rust structs, changed in
//! place, with the checks of documents 01 and 02 in the same order. `baseline ROUNDS` prints the line that
//! `bench ROUNDS` prints.

mod cache;
mod disk;
mod layout;
mod operations;
mod script;
mod sector;
mod store;

use cache::Call;
use disk::{DiskOp, Records};
use operations::Operation;
use sector::Node;
use store::{disk_op, Store};

impl Store {
    /// The joined call: cache and disk are asked, and if either refuses neither moves.
    #[inline(never)]
    fn step(&mut self, number: u64, q: &Call, offered: Option<&Records>) -> (u64, Node) {
        let (device, op) = (self.device, disk_op(number, q));
        let a = self.cache.refusal(device, self.disk.rule, number, q);
        let b = if number == 18 {
            self.disk.crash_refusal(device, offered.unwrap_or(&self.disk.records))
        } else {
            self.disk.refusal(device, op, &q.node, &q.table)
        };
        let n = self.answer(number, q, a, b);
        if n != 0 {
            return (n, Node::default());
        }
        let node = self.cache.apply(device, number, q);
        if number != 18 {
            self.disk.apply(device, op, &q.node, &q.table);
        } else if let Some(offered) = offered {
            self.disk.crash(offered);
        } else {
            let offered = self.disk.records;
            self.disk.crash(&offered);
        }
        (0, node)
    }

    /// Step 20: the disk is asked with no operation, and does not move. The answer and the place.
    #[inline(never)]
    fn operations(&mut self, q: &Call, list: &[Operation]) -> (u64, u64) {
        let b = self.disk.refusal(self.device, DiskOp::None, &q.node, &q.table);
        if b != 0 {
            return (b, 0);
        }
        self.cache.operations(self.device, self.disk.rule, q, list)
    }
}

fn main() {
    script::run(
        |o, number, q, offered| (o.answer, o.node) = o.store.step(number, q, offered),
        |o, q, list| {
            let (answer, place) = o.store.operations(q, list);
            (o.answer, o.node) = (answer, Node::default());
            place
        },
    );
}
