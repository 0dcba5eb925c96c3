//! The script of crates/bench: rounds of 91 joined calls, each made by a function that a baseline gives.

use crate::cache::{Call, VersionOp};
use crate::disk::{DiskOp, NodeRecord, Records, TableRecord};
use crate::layout::{self, Location};
use crate::operations::Operation;
use crate::sector::{Contents, Entry, Node, Succs, Table};
use crate::store::{Outcome, Store};

/// A joined call on the store of the last outcome, which becomes this call's. No records offered means those
/// that are stored.
pub type Joined = fn(&mut Outcome, u64, &Call, Option<&Records>);

/// Step 20 likewise; it returns the place of the operation that failed.
pub type Listed = fn(&mut Outcome, &Call, &[Operation]) -> u64;

struct State {
    joined: Joined,
    listed: Listed,
    base: u64,
    calls: u64,
    accepted: u64,
    checksum: u64,
    last: Outcome,
}

fn bare(reference: u64, vop: VersionOp, dop: DiskOp) -> Call {
    Call { reference, vop, dop, node: Node::default(), table: Table::default() }
}

fn with_node(reference: u64, vop: VersionOp, dop: DiskOp, node: Node) -> Call {
    Call { reference, vop, dop, node, table: Table::default() }
}

fn write(reference: u64, node: Node) -> Operation {
    Operation { alloc: false, reference, node }
}

fn naming(contents: Contents, list: &[u8]) -> Node {
    let mut at = [0; 8];
    at[..list.len()].copy_from_slice(list);
    Node { contents, succs: Succs { count: list.len() as u8, at } }
}

const INTERNAL: VersionOp = VersionOp::StatesInternal;
const NONE: DiskOp = DiskOp::None;
const ONE: Contents = Contents { high: 0, low: 1 };

impl State {
    fn mix(&mut self, x: u64) {
        self.checksum = self.checksum.wrapping_mul(33).wrapping_add(x);
    }

    fn call(&mut self, number: u64, q: Call, offered: Option<&Records>) {
        (self.joined)(&mut self.last, number, &q, offered);
        let Contents { high, low } = self.last.node.contents;
        self.count(high, low);
    }

    /// Where a step's checksum takes high and low, a list's takes the place and 0.
    fn list(&mut self, list: &[Operation]) {
        let q = bare(0, VersionOp::Advance(false), NONE);
        let place = (self.listed)(&mut self.last, &q, list);
        self.count(place, 0);
    }

    fn count(&mut self, second: u64, third: u64) {
        let answer = self.last.answer;
        self.calls += 1;
        self.accepted += (answer == 0) as u64;
        self.mix(answer);
        self.mix(second);
        self.mix(third);
    }

    fn turn(&mut self, number: u64, q: Call) {
        self.call(number, q, None);
    }

    fn block(&self, k: usize) -> Location {
        Location { addr: layout::node_addr(self.last.store.device, k), len: 4096 }
    }

    fn area(&self, k: usize) -> Location {
        Location { addr: layout::table_addr(self.last.store.device, k), len: 4096 }
    }

    fn format(&mut self, device: u64, base: u64) {
        self.base = base;
        self.last.store = Store { device, ..Store::default() };
        let (at, place) = (self.area(0), self.block(0));
        let mut table = Table::default();
        table.set(0, Entry { allocated: true, located: true, loc: place, succs: Succs::default() });
        let node = naming(self.contents(0), &[]);
        let disk = &mut self.last.store.disk;
        disk.rule = 2;
        disk.records.tables[0] = TableRecord { present: true, loc: at, table };
        disk.records.nodes[0] = NodeRecord { present: true, loc: place, node };
    }

    fn read(&mut self, r: u64) {
        self.turn(17, bare(r, INTERNAL, NONE));
    }

    fn start(&mut self, area: usize) {
        self.turn(10, bare(0, VersionOp::SendPersistentLoc(self.area(area)), NONE));
    }

    fn table_req(&mut self, id: u64, area: usize) {
        self.turn(8, bare(0, INTERNAL, DiskOp::ReqReadTable(id, self.area(area))));
    }

    fn table_resp(&mut self, id: u64, area: usize) {
        let table = self.last.store.disk.records.tables[area].table;
        let dop = DiskOp::RespReadTable(id, true);
        self.turn(9, Call { reference: 0, vop: INTERNAL, dop, node: Node::default(), table });
    }

    fn node_req(&mut self, r: u64, id: u64, block: usize) {
        self.turn(6, bare(r, INTERNAL, DiskOp::ReqReadNode(id, self.block(block))));
    }

    fn node_resp(&mut self, id: u64, node: Node) {
        self.turn(7, with_node(0, INTERNAL, DiskOp::RespReadNode(id, true), node));
    }

    fn evict(&mut self, r: u64) {
        self.turn(11, bare(r, INTERNAL, NONE));
    }

    fn alloc(&mut self, r: u64, node: Node) {
        self.turn(16, with_node(r, VersionOp::Advance(false), NONE, node));
    }

    fn dirty(&mut self, r: u64, node: Node) {
        self.turn(15, with_node(r, VersionOp::Advance(false), NONE, node));
    }

    fn unalloc(&mut self, r: u64) {
        self.turn(5, bare(r, VersionOp::Advance(true), NONE));
    }

    fn write_req(&mut self, r: u64, id: u64, block: usize, node: Node) {
        self.turn(1, with_node(r, INTERNAL, DiskOp::ReqWriteNode(id, self.block(block)), node));
    }

    fn write_resp(&mut self, id: u64) {
        self.turn(2, bare(0, INTERNAL, DiskOp::RespWriteNode(id)));
    }

    fn freeze(&mut self) {
        self.turn(12, bare(0, VersionOp::Freeze, NONE));
    }

    /// Contents in this round: high its number, low that and r more.
    fn contents(&self, r: u64) -> Contents {
        Contents { high: self.base, low: self.base.wrapping_add(r) }
    }

    fn leaf(&self, r: u8) -> Node {
        naming(self.contents(r as u64), &[r.saturating_sub(1), 0])
    }

    fn round(&mut self, i: u64) {
        self.format(i % 3, i);

        self.read(0);
        self.start(1);
        self.start(0);
        self.table_req(1, 0);
        self.table_req(2, 0);
        self.table_resp(1, 0);
        self.evict(0);
        self.node_req(0, 7, 0);
        self.node_req(0, 8, 0);
        self.node_resp(7, naming(self.contents(0), &[]));
        self.read(0);
        self.alloc(5, naming(ONE, &[5, 5]));

        for r in 1..=8 {
            self.alloc(r as u64, self.leaf(r));
        }
        let contents = self.contents(100);
        self.dirty(0, naming(contents, &[1, 2, 3, 4, 5, 6, 7, 8]));
        for r in 0..=8 {
            self.read(r);
        }
        self.unalloc(8);
        let root = naming(contents, &[1, 2, 3, 4, 5, 6, 7]);
        self.dirty(0, root);
        self.unalloc(8);

        let contents = self.contents(200);
        let mut list = [
            Operation { alloc: true, reference: 8, node: self.leaf(8) },
            Operation { alloc: true, reference: 9, node: self.leaf(9) },
            write(1, naming(contents, &[8, 9])),
            write(2, naming(contents, &[9, 9])),
            write(0, naming(contents, &[1, 2, 3, 4, 5, 6, 7, 8])),
            write(1, self.leaf(1)),
            write(2, self.leaf(2)),
            write(0, root),
        ];
        self.list(&list);
        list[0] = write(8, naming(contents, &[9, 0]));
        self.list(&list);
        self.read(9);
        self.unalloc(9);
        self.unalloc(8);

        for r in 0..8 {
            let node = if r == 0 { root } else { self.leaf(r) };
            self.write_req(r as u64, 20 + r as u64, 1 + r as usize, node);
        }
        self.write_req(0, 30, 0, root);
        self.evict(3);
        for k in 0..8 {
            self.write_resp(20 + k);
        }
        self.write_resp(99);

        let small = naming(ONE, &[0, 0]);
        self.freeze();
        self.dirty(1, small);
        let dop = DiskOp::ReqWriteTable(40, self.area(1));
        let table = self.last.store.cache.frozen;
        self.turn(3, Call { reference: 0, vop: INTERNAL, dop, node: Node::default(), table });
        self.freeze();
        self.write_req(1, 41, 20, small);
        self.turn(4, bare(0, VersionOp::SendFrozenLoc(self.area(1)), DiskOp::RespWriteTable(40)));
        self.freeze();
        self.turn(13, bare(0, VersionOp::CleanUp, NONE));
        self.turn(13, bare(0, VersionOp::CleanUp, NONE));
        self.turn(14, bare(0, VersionOp::PushSync, NONE));
        self.turn(14, bare(0, VersionOp::PushSync, DiskOp::RespReadNode(77, true)));

        self.evict(2);
        self.read(2);
        self.node_req(2, 50, 3);
        self.turn(14, bare(0, VersionOp::PushSync, DiskOp::RespReadNode(50, false)));
        self.turn(19, bare(0, INTERNAL, DiskOp::RespReadNode(50, false)));
        self.node_req(2, 51, 3);
        self.node_resp(51, self.leaf(2));
        self.read(2);
        self.freeze();
        self.dirty(1, small);
        self.write_req(1, 60, 21, small);
        self.turn(18, bare(0, INTERNAL, NONE));
        self.call(18, bare(0, VersionOp::Crash, NONE), Some(&Records::default()));
        self.turn(18, bare(0, VersionOp::Crash, NONE));

        self.start(1);
        self.table_req(70, 1);
        self.table_resp(70, 1);
        self.node_req(1, 71, 2);
        self.node_resp(71, self.leaf(1));
        self.read(1);
        self.turn(0, bare(0, INTERNAL, NONE));
        self.turn(21, bare(0, INTERNAL, NONE));
        self.turn(18, bare(0, VersionOp::Crash, NONE));
    }
}

/// As many rounds as the program's argument says, and the line that `bench` prints.
pub fn run(joined: Joined, listed: Listed) {
    let rounds: u64 = std::env::args().nth(1).and_then(|a| a.parse().ok()).unwrap_or(0);
    let mut s = State { joined, listed, base: 0, calls: 0, accepted: 0, checksum: 0, last: Outcome::default() };
    for i in 0..rounds {
        s.round(i);
    }
    println!("calls={} accepted={} checksum={}", s.calls, s.accepted, s.checksum);
}
