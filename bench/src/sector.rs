//! Nodes, tables and queues, each of fixed size with one written form.

use crate::layout::Location;

#[derive(Clone, Copy, PartialEq, Eq, Default)]
pub struct Succs {
    pub count: u8,
    pub at: [u8; 8],
}

#[derive(Clone, Copy, PartialEq, Eq, Default)]
pub struct Contents {
    pub high: u64,
    pub low: u64,
}

#[derive(Clone, Copy, PartialEq, Eq, Default)]
pub struct Node {
    pub contents: Contents,
    pub succs: Succs,
}

#[derive(Clone, Copy, PartialEq, Eq, Default)]
pub struct Entry {
    pub allocated: bool,
    pub located: bool,
    pub loc: Location,
    pub succs: Succs,
}

#[derive(Clone, Copy, PartialEq, Eq)]
pub struct Table {
    pub count: u8,
    pub entries: [Entry; 64],
}

#[derive(Clone, Copy, PartialEq, Eq, Default)]
pub struct Slot {
    pub present: bool,
    pub node: Node,
}

#[derive(Clone, Copy, PartialEq, Eq)]
pub struct Nodes {
    pub count: u8,
    pub slots: [Slot; 64],
}

#[derive(Clone, Copy, PartialEq, Eq, Default)]
pub struct Request {
    pub id: u64,
    pub reference: u8,
    pub loc: Location,
}

#[derive(Clone, Copy, PartialEq, Eq, Default)]
pub struct Requests {
    pub count: u8,
    pub at: [Request; 16],
}

impl Default for Table {
    fn default() -> Table {
        Table { count: 0, entries: [Entry::default(); 64] }
    }
}

impl Default for Nodes {
    fn default() -> Nodes {
        Nodes { count: 0, slots: [Slot::default(); 64] }
    }
}

impl Succs {
    pub fn list(&self) -> &[u8] {
        &self.at[..self.count as usize]
    }

    /// A list of zeros, as most are, has only its count to be judged; the store asks this first too.
    pub fn form(&self) -> bool {
        let n = self.count as usize;
        if self.at == [0; 8] {
            return n <= 8;
        }
        n <= 8 && self.at[..n].iter().all(|&r| r <= 63) && self.at[n..].iter().all(|&r| r == 0)
    }

    pub fn same_set(&self, other: &Succs) -> bool {
        self.list().iter().all(|r| other.list().contains(r)) && other.list().iter().all(|r| self.list().contains(r))
    }
}

impl Node {
    pub fn form(&self) -> bool {
        self.succs.form()
    }
}

impl Entry {
    fn form(&self) -> bool {
        self.succs.form()
            && (self.located || self.loc == Location::default())
            && (self.allocated || (!self.located && self.succs.count == 0))
    }
}

impl Table {
    pub fn form(&self) -> bool {
        let n = self.entries.iter().filter(|e| e.allocated).count();
        self.count as usize == n && self.entries.iter().all(Entry::form)
    }

    pub fn set(&mut self, r: usize, e: Entry) {
        self.count = self.count - self.entries[r].allocated as u8 + e.allocated as u8;
        self.entries[r] = e;
    }

    /// Each reference of the list is allocated.
    pub fn points_within(&self, s: &Succs) -> bool {
        s.list().iter().all(|&r| self.entries[r as usize].allocated)
    }

    /// The addresses of its locations.
    pub fn located(&self) -> impl Iterator<Item = u64> + '_ {
        self.entries.iter().filter(|e| e.located).map(|e| e.loc.addr)
    }

    pub fn holds_addr(&self, addr: u64) -> bool {
        self.located().any(|a| a == addr)
    }

    pub fn lacks_location(&self) -> bool {
        self.entries.iter().any(|e| e.allocated && !e.located)
    }

    pub fn names(&self, r: u8) -> bool {
        self.entries.iter().any(|e| e.allocated && e.succs.list().contains(&r))
    }

    /// WFCompleteIndirectionTable.
    pub fn wf_complete(&self, device: u64) -> bool {
        self.entries[0].allocated
            && self.entries.iter().all(|e| {
                e.allocated == e.located
                    && (!e.located || crate::layout::node_location(device, e.loc))
                    && (!e.allocated || self.points_within(&e.succs))
            })
    }

    pub fn distinct_addrs(&self) -> bool {
        (0..64).all(|i| {
            let a = &self.entries[i];
            !a.located || self.entries[i + 1..].iter().all(|b| !b.located || b.loc.addr != a.loc.addr)
        })
    }
}

impl Nodes {
    pub fn form(&self) -> bool {
        let n = self.slots.iter().filter(|s| s.present).count();
        self.count as usize == n
            && self.slots.iter().all(|s| s.node.form() && (s.present || s.node == Node::default()))
    }

    pub fn set(&mut self, r: usize, s: Slot) {
        self.count = self.count - self.slots[r].present as u8 + s.present as u8;
        self.slots[r] = s;
    }
}

impl Requests {
    pub fn list(&self) -> &[Request] {
        &self.at[..self.count as usize]
    }

    pub fn form(&self) -> bool {
        let n = self.count as usize;
        n <= 16
            && self.at[..n].windows(2).all(|w| w[0].id < w[1].id)
            && self.at[n..].iter().all(|w| *w == Request::default())
    }

    pub fn find(&self, id: u64) -> Option<usize> {
        self.list().iter().position(|w| w.id == id)
    }

    pub fn has(&self, id: u64) -> bool {
        self.find(id).is_some()
    }

    pub fn insert(&mut self, w: Request) {
        let n = self.count as usize;
        let p = self.list().iter().position(|x| w.id < x.id).unwrap_or(n);
        self.at.copy_within(p..n, p + 1);
        self.at[p] = w;
        self.count += 1;
    }

    pub fn remove(&mut self, id: u64) {
        if let Some(p) = self.find(id) {
            let n = self.count as usize;
            self.at.copy_within(p + 1..n, p);
            self.at[n - 1] = Request::default();
            self.count -= 1;
        }
    }
}
