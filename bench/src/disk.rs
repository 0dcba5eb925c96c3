//! The disk: two table areas, 128 node blocks, four queues, the freeze rule.

use crate::layout::{self, Location};
use crate::sector::{Node, Request, Requests, Table};

#[derive(Clone, Copy, PartialEq, Eq, Default)]
pub struct TableRecord {
    pub present: bool,
    pub loc: Location,
    pub table: Table,
}

#[derive(Clone, Copy, PartialEq, Eq, Default)]
pub struct NodeRecord {
    pub present: bool,
    pub loc: Location,
    pub node: Node,
}

#[derive(Clone, Copy, PartialEq, Eq)]
pub struct Records {
    pub tables: [TableRecord; 2],
    pub nodes: [NodeRecord; 128],
}

#[derive(Clone, Copy, PartialEq, Eq, Default)]
pub struct Disk {
    pub rule: u64,
    pub records: Records,
    pub tablereads: Requests,
    pub nodereads: Requests,
    pub tablewrites: Requests,
    pub nodewrites: Requests,
}

/// A freeze rule is 1 or 2.
pub fn is_rule(rule: u64) -> bool {
    rule == 1 || rule == 2
}

/// A read answer says whether it brings something; the node or the table stands beside the operation.
#[derive(Clone, Copy, PartialEq, Eq)]
pub enum DiskOp {
    None,
    ReqReadTable(u64, Location),
    ReqReadNode(u64, Location),
    ReqWriteTable(u64, Location),
    ReqWriteNode(u64, Location),
    RespReadTable(u64, bool),
    RespReadNode(u64, bool),
    RespWriteTable(u64),
    RespWriteNode(u64),
}

impl Default for Records {
    fn default() -> Records {
        Records { tables: [TableRecord::default(); 2], nodes: [NodeRecord::default(); 128] }
    }
}

impl Records {
    /// Each record in its written form.
    fn form(&self) -> bool {
        self.tables.iter().all(|r| r.table.form() && (r.present || *r == TableRecord::default()))
            && self.nodes.iter().all(|r| r.node.form() && (r.present || *r == NodeRecord::default()))
    }

    /// Each record in its own area or block.
    fn placed(&self, device: u64) -> bool {
        self.tables.iter().enumerate().all(|(k, r)| !r.present || layout::table_place_in(device, k, r.loc))
            && self.nodes.iter().enumerate().all(|(k, r)| !r.present || layout::node_place_in(device, k, r.loc))
    }

    pub fn table_at(&self, device: u64, loc: Location) -> Option<&Table> {
        let r = &self.tables[layout::table_area_of(device, loc.addr)?];
        if r.present && r.loc == loc { Some(&r.table) } else { None }
    }

    pub fn node_at(&self, device: u64, loc: Location) -> Option<&Node> {
        let r = &self.nodes[layout::node_block_of(device, loc.addr)?];
        if r.present && r.loc == loc { Some(&r.node) } else { None }
    }

    /// WFSuccs: a whole graph is stored at this place.
    pub fn whole_graph_at(&self, device: u64, loc: Location) -> bool {
        let Some(t) = self.table_at(device, loc) else { return false };
        t.wf_complete(device)
            && t.entries.iter().filter(|e| e.allocated).all(|e| match self.node_at(device, e.loc) {
                Some(n) => n.succs.same_set(&e.succs) && t.points_within(&n.succs),
                None => false,
            })
    }
}

fn table_queue_form(device: u64, q: &Requests) -> bool {
    q.form() && q.list().iter().all(|w| w.reference == 0 && layout::table_location(device, w.loc))
}

fn node_queue_form(device: u64, q: &Requests) -> bool {
    q.form() && q.list().iter().all(|w| w.reference == 0 && layout::node_place(device, w.loc))
}

fn request(q: &Requests, id: u64, allowed: bool) -> u64 {
    if q.has(id) {
        15
    } else if !allowed {
        16
    } else if q.count >= 16 {
        18
    } else {
        0
    }
}

fn written_at(q: &Requests, addr: u64) -> bool {
    q.list().iter().any(|w| w.loc.addr == addr)
}

impl Disk {
    pub fn form(&self, device: u64) -> bool {
        self.records.form()
            && self.records.placed(device)
            && table_queue_form(device, &self.tablereads)
            && node_queue_form(device, &self.nodereads)
            && table_queue_form(device, &self.tablewrites)
            && node_queue_form(device, &self.nodewrites)
            && is_rule(self.rule)
    }

    /// The number of an operation, 0 if the disk accepts it.
    pub fn refusal(&self, device: u64, op: DiskOp, node: &Node, table: &Table) -> u64 {
        if !(device <= 2 && self.form(device) && node.form() && table.form()) {
            return 1;
        }
        match op {
            DiskOp::None => 0,
            DiskOp::ReqReadTable(id, l) => request(&self.tablereads, id, layout::table_location(device, l)),
            DiskOp::ReqReadNode(id, l) => request(&self.nodereads, id, layout::node_place(device, l)),
            DiskOp::ReqWriteTable(id, l) => request(&self.tablewrites, id, layout::table_location(device, l)),
            DiskOp::ReqWriteNode(id, l) => request(&self.nodewrites, id, layout::node_place(device, l)),
            DiskOp::RespReadTable(id, brought) => match self.tablereads.find(id) {
                None => 15,
                Some(k) => {
                    let stored = self.records.table_at(device, self.tablereads.at[k].loc);
                    if brought && stored != Some(table) { 17 } else { 0 }
                }
            },
            DiskOp::RespReadNode(id, brought) => match self.nodereads.find(id) {
                None => 15,
                Some(k) => {
                    let stored = self.records.node_at(device, self.nodereads.at[k].loc);
                    if brought && stored != Some(node) { 17 } else { 0 }
                }
            },
            DiskOp::RespWriteTable(id) => if self.tablewrites.has(id) { 0 } else { 15 },
            DiskOp::RespWriteNode(id) => if self.nodewrites.has(id) { 0 } else { 15 },
        }
    }

    /// An operation that is not refused.
    pub fn apply(&mut self, device: u64, op: DiskOp, node: &Node, table: &Table) {
        let queued = |id, loc| Request { id, reference: 0, loc };
        match op {
            DiskOp::None => {}
            DiskOp::ReqReadTable(id, l) => self.tablereads.insert(queued(id, l)),
            DiskOp::ReqReadNode(id, l) => self.nodereads.insert(queued(id, l)),
            DiskOp::ReqWriteTable(id, loc) => {
                self.tablewrites.insert(queued(id, loc));
                let k = layout::table_area_of(device, loc.addr).unwrap();
                self.records.tables[k] = TableRecord { present: true, loc, table: *table };
            }
            DiskOp::ReqWriteNode(id, loc) => {
                self.nodewrites.insert(queued(id, loc));
                let k = layout::node_block_of(device, loc.addr).unwrap();
                self.records.nodes[k] = NodeRecord { present: true, loc, node: *node };
            }
            DiskOp::RespReadTable(id, _) => self.tablereads.remove(id),
            DiskOp::RespReadNode(id, _) => self.nodereads.remove(id),
            DiskOp::RespWriteTable(id) => self.tablewrites.remove(id),
            DiskOp::RespWriteNode(id) => self.nodewrites.remove(id),
        }
    }

    /// The number of a crash that leaves these records.
    pub fn crash_refusal(&self, device: u64, offered: &Records) -> u64 {
        if !(device <= 2 && self.form(device) && offered.form()) {
            return 1;
        }
        let tables = self.records.tables.iter().zip(&offered.tables);
        let nodes = self.records.nodes.iter().zip(&offered.nodes);
        let kept = tables.into_iter().all(|(a, b)| !a.present || written_at(&self.tablewrites, a.loc.addr) || a == b)
            && nodes.into_iter().all(|(a, b)| !a.present || written_at(&self.nodewrites, a.loc.addr) || a == b);
        if offered.placed(device) && kept { 0 } else { 19 }
    }

    pub fn crash(&mut self, offered: &Records) {
        *self = Disk { rule: self.rule, records: *offered, ..Disk::default() };
    }
}
