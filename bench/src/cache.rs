//! The cache: phases, three tables, what is outstanding, the cached nodes, the marks of the node blocks.

use crate::disk::{is_rule, DiskOp};
use crate::layout::{self, Location};
use crate::sector::{Entry, Node, Nodes, Request, Requests, Slot, Table};

#[derive(Clone, Copy, PartialEq, Eq, Default)]
pub enum Phase {
    #[default]
    Unready,
    Loading,
    Ready,
}

#[derive(Clone, Copy, PartialEq, Eq)]
/// Upstream's VOp, whole: the script has no JournalInternalOp and no PopSyncOp.
#[allow(dead_code)]
pub enum VersionOp {
    StatesInternal,
    JournalInternal,
    SendPersistentLoc(Location),
    SendFrozenLoc(Location),
    Advance(bool),
    Freeze,
    CleanUp,
    PushSync,
    PopSync,
    Crash,
}

#[derive(Clone, Copy)]
pub struct Call {
    pub reference: u64,
    pub vop: VersionOp,
    pub dop: DiskOp,
    pub node: Node,
    pub table: Table,
}

/// A mark for each of the 128 node blocks, in two words, and the block given last.
#[derive(Clone, Copy, PartialEq, Eq, Default)]
pub struct Blocks {
    pub marks: [u64; 2],
    pub last: u64,
}

#[derive(Clone, Copy, Default)]
pub struct Cache {
    pub phase: Phase,
    pub persistent: Table,
    pub ephemeral: Table,
    pub isfrozen: bool,
    pub frozen: Table,
    pub place: Location,
    pub frozenplaced: bool,
    pub frozenplace: Location,
    pub waiting: bool,
    pub awaited: u64,
    pub writes: Requests,
    pub reads: Requests,
    pub nodes: Nodes,
    pub blocks: Blocks,
}

/// The first of these conditions that holds, by its number.
macro_rules! first {
    ($($number:literal: $condition:expr),* $(,)?) => {{
        $(if $condition { return $number; })*
    }};
}
pub(crate) use first;

impl Cache {
    pub fn form(&self, device: u64) -> bool {
        self.persistent.form()
            && self.ephemeral.form()
            && self.frozen.form()
            && (self.isfrozen || self.frozen.count == 0)
            && (self.frozenplaced || self.frozenplace == Location::default())
            && (self.waiting || self.awaited == 0)
            && self.writes.form()
            && self.writes.list().iter().all(|w| w.reference <= 63)
            && self.reads.form()
            && self.reads.list().iter().all(|w| w.reference <= 63 && w.loc == Location::default())
            && self.nodes.form()
            && match self.phase {
                Phase::Unready => self.idle() && self.place == Location::default() && !self.waiting,
                Phase::Loading => self.idle(),
                Phase::Ready => self.blocks.last <= 127 && self.blocks.marks == self.marks(device),
            }
    }

    fn idle(&self) -> bool {
        self.persistent.count == 0
            && self.ephemeral.count == 0
            && !self.isfrozen
            && !self.frozenplaced
            && self.writes.count == 0
            && self.reads.count == 0
            && self.nodes.count == 0
            && self.blocks == Blocks::default()
    }

    /// The blocks that have the address of a location in a table or of an outstanding write.
    fn marks(&self, device: u64) -> [u64; 2] {
        let mut marks = [0; 2];
        let mut mark = |addr| {
            if let Some(k) = layout::node_block_of(device, addr) {
                marks[k / 64] |= 1 << (k % 64);
            }
        };
        for t in [&self.persistent, &self.ephemeral] {
            t.located().for_each(&mut mark);
        }
        if self.isfrozen {
            self.frozen.located().for_each(&mut mark);
        }
        self.writes.list().iter().for_each(|w| mark(w.loc.addr));
        marks
    }

    pub fn fz(&self, r: usize) -> bool {
        let e = &self.frozen.entries[r];
        self.isfrozen && e.allocated && !e.located
    }

    fn held(&self, addr: u64) -> bool {
        self.persistent.holds_addr(addr)
            || self.ephemeral.holds_addr(addr)
            || (self.isfrozen && self.frozen.holds_addr(addr))
            || self.writes.list().iter().any(|w| w.loc.addr == addr)
    }

    /// The answer of a read that the cache awaits: a node's in Ready, a table's in Loading.
    fn awaits_read(&self, dop: DiskOp) -> bool {
        match dop {
            DiskOp::RespReadNode(id, _) => self.phase == Phase::Ready && self.reads.has(id),
            DiskOp::RespReadTable(id, _) => self.phase == Phase::Loading && self.waiting && self.awaited == id,
            _ => false,
        }
    }

    /// The number of a call, 0 if the cache accepts it.
    pub fn refusal(&self, device: u64, rule: u64, number: u64, q: &Call) -> u64 {
        if !(device <= 2 && is_rule(rule) && self.form(device) && q.reference <= 63 && q.node.form() && q.table.form()) {
            return 1;
        }
        let r = q.reference as usize;
        let (entry, slot) = (&self.ephemeral.entries[r], &self.nodes.slots[r]);
        let internal = q.vop == VersionOp::StatesInternal;
        let bare = q.dop == DiskOp::None;
        let ready = self.phase == Phase::Ready;
        match number {
            1 => {
                first!(2: !internal);
                let DiskOp::ReqWriteNode(id, loc) = q.dop else { return 3 };
                first!(
                    4: !ready,
                    5: self.writes.has(id),
                    6: !layout::node_location(device, loc) || loc.len == 0,
                    7: self.held(loc.addr),
                    8: !slot.present,
                    9: slot.node != q.node,
                    10: self.waiting,
                    14: self.writes.count >= 16,
                );
            }
            2 => {
                first!(2: !internal);
                let DiskOp::RespWriteNode(id) = q.dop else { return 3 };
                first!(4: !ready, 5: !self.writes.has(id));
            }
            3 => {
                first!(2: !internal);
                let DiskOp::ReqWriteTable(_, loc) = q.dop else { return 3 };
                first!(
                    4: !ready,
                    6: !layout::table_location(device, loc) || layout::overlap(loc, self.place),
                    9: self.isfrozen && self.frozen != q.table,
                    10: self.writes.count != 0,
                    11: !self.isfrozen || self.frozen.lacks_location() || self.frozenplaced,
                );
            }
            4 => {
                let VersionOp::SendFrozenLoc(loc) = q.vop else { return 2 };
                let DiskOp::RespWriteTable(id) = q.dop else { return 3 };
                first!(
                    4: !ready,
                    5: !(self.waiting && self.awaited == id),
                    6: !(self.frozenplaced && self.frozenplace == loc),
                );
            }
            5 => first!(
                2: q.vop != VersionOp::Advance(true),
                3: !bare,
                4: !ready,
                8: !entry.allocated,
                10: self.reads.list().iter().any(|w| w.reference as usize == r),
                11: self.fz(r),
                12: r == 0 || self.ephemeral.names(r as u8),
            ),
            6 => {
                first!(2: !internal);
                let DiskOp::ReqReadNode(id, loc) = q.dop else { return 3 };
                first!(
                    4: !ready,
                    5: self.reads.has(id),
                    6: entry.located && entry.loc != loc,
                    8: !entry.allocated || !entry.located || slot.present,
                    10: self.reads.list().iter().any(|w| w.reference as usize == r),
                    14: self.reads.count >= 16,
                );
            }
            7 => {
                first!(2: !internal);
                let DiskOp::RespReadNode(id, brought) = q.dop else { return 3 };
                first!(4: !ready);
                let Some(k) = self.reads.find(id) else { return 5 };
                let k = self.reads.at[k].reference as usize;
                let entry = &self.ephemeral.entries[k];
                first!(
                    8: self.nodes.slots[k].present || !entry.allocated,
                    9: !brought || !entry.succs.same_set(&q.node.succs),
                );
            }
            8 => {
                first!(2: !internal);
                let DiskOp::ReqReadTable(_, loc) = q.dop else { return 3 };
                first!(4: self.phase != Phase::Loading, 6: loc != self.place, 10: self.waiting);
            }
            9 => {
                first!(2: !internal);
                let DiskOp::RespReadTable(id, brought) = q.dop else { return 3 };
                first!(
                    4: self.phase != Phase::Loading,
                    5: !(self.waiting && self.awaited == id),
                    9: !brought || !q.table.wf_complete(device) || !q.table.distinct_addrs(),
                );
            }
            10 => {
                let VersionOp::SendPersistentLoc(loc) = q.vop else { return 2 };
                first!(3: !bare, 4: self.phase != Phase::Unready, 6: !layout::table_location(device, loc));
            }
            11 => first!(
                2: !internal,
                3: !bare,
                4: !ready,
                8: !slot.present || (entry.allocated && !entry.located),
                10: entry.allocated
                    && self.writes.list().iter().any(|w| w.reference as usize == r && w.loc == entry.loc),
                11: self.fz(r),
            ),
            12 => first!(2: q.vop != VersionOp::Freeze, 3: !bare, 4: !ready, 10: self.waiting, 25: rule == 2 && self.frozenplaced),
            13 => first!(
                2: q.vop != VersionOp::CleanUp,
                3: !bare,
                4: !ready,
                10: self.waiting,
                11: !self.frozenplaced || !self.isfrozen,
            ),
            14 => {
                first!(2: !matches!(
                    q.vop,
                    VersionOp::StatesInternal | VersionOp::JournalInternal | VersionOp::PushSync | VersionOp::PopSync
                ));
                match q.dop {
                    DiskOp::None => {}
                    DiskOp::RespReadTable(..) | DiskOp::RespReadNode(..) => first!(22: self.awaits_read(q.dop)),
                    DiskOp::RespWriteTable(id) => first!(5: ready && self.waiting && self.awaited == id),
                    DiskOp::RespWriteNode(id) => first!(5: ready && self.writes.has(id)),
                    _ => return 3,
                }
            }
            15 | 16 | 20 => {
                first!(2: !matches!(q.vop, VersionOp::Advance(_)), 3: !bare, 4: !ready);
                return match number {
                    15 => self.dirty_refusal(r, &q.node),
                    16 => self.alloc_refusal(r, &q.node),
                    _ => 0, // its operations are asked in turn
                };
            }
            17 => first!(4: !ready, 8: !entry.allocated || !slot.present),
            18 => first!(2: q.vop != VersionOp::Crash),
            19 => {
                first!(2: !internal);
                match q.dop {
                    DiskOp::RespReadNode(..) => first!(4: !ready),
                    DiskOp::RespReadTable(..) => first!(4: self.phase != Phase::Loading),
                    _ => return 3,
                }
                first!(5: !self.awaits_read(q.dop));
            }
            _ => return 1,
        }
        0
    }

    /// A call that is not refused; the node that a read brings.
    pub fn apply(&mut self, device: u64, number: u64, q: &Call) -> Node {
        let node = self.take(number, q);
        // the steps that may move a location of a table or an outstanding write
        if matches!(number, 1 | 2 | 5 | 9 | 12 | 13 | 15) {
            self.renew_marks(device);
        }
        node
    }

    pub fn renew_marks(&mut self, device: u64) {
        self.blocks.marks = self.marks(device);
    }

    fn take(&mut self, number: u64, q: &Call) -> Node {
        let r = q.reference as usize;
        match (number, q.dop) {
            (1, DiskOp::ReqWriteNode(id, loc)) => {
                for t in [&mut self.ephemeral, &mut self.frozen] {
                    let e = &mut t.entries[r];
                    if e.allocated && !e.located {
                        e.located = true;
                        e.loc = loc;
                    }
                }
                self.writes.insert(Request { id, reference: r as u8, loc });
            }
            (2, DiskOp::RespWriteNode(id)) => self.writes.remove(id),
            (3, DiskOp::ReqWriteTable(id, loc)) => {
                self.frozenplaced = true;
                self.frozenplace = loc;
                self.waiting = true;
                self.awaited = id;
            }
            (4, _) => {
                self.waiting = false;
                self.awaited = 0;
            }
            (5, _) => {
                self.ephemeral.set(r, Entry::default());
                self.nodes.set(r, Slot::default());
            }
            (6, DiskOp::ReqReadNode(id, _)) => {
                self.reads.insert(Request { id, reference: r as u8, loc: Location::default() });
            }
            (7, DiskOp::RespReadNode(id, _)) => {
                let k = self.reads.find(id).map_or(0, |k| self.reads.at[k].reference as usize);
                self.reads.remove(id);
                self.nodes.set(k, Slot { present: true, node: q.node });
            }
            (8, DiskOp::ReqReadTable(id, _)) => {
                self.waiting = true;
                self.awaited = id;
            }
            (9, _) => {
                self.phase = Phase::Ready;
                self.persistent = q.table;
                self.ephemeral = q.table;
                self.waiting = false;
                self.awaited = 0;
                self.blocks.last = 127;
            }
            (10, _) => {
                if let VersionOp::SendPersistentLoc(place) = q.vop {
                    *self = Cache { phase: Phase::Loading, place, ..Cache::default() };
                }
            }
            (11, _) => self.nodes.set(r, Slot::default()),
            (12, _) => {
                self.isfrozen = true;
                self.frozen = self.ephemeral;
                self.frozenplaced = false;
                self.frozenplace = Location::default();
            }
            (13, _) => {
                self.persistent = self.frozen;
                self.isfrozen = false;
                self.frozen = Table::default();
                self.place = self.frozenplace;
                self.frozenplaced = false;
                self.frozenplace = Location::default();
            }
            (15 | 16, _) => self.put(r, &q.node),
            (17, _) => return self.nodes.slots[r].node,
            (18, _) => *self = Cache::default(),
            (19, DiskOp::RespReadNode(id, _)) => self.reads.remove(id),
            (19, _) => {
                self.waiting = false;
                self.awaited = 0;
            }
            _ => {}
        }
        Node::default()
    }
}
