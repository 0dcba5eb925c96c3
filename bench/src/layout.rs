//! The devices, and which places are valid (document 01, and upstream's DiskLayout).

#[derive(Clone, Copy, PartialEq, Eq, Default, Debug)]
pub struct Location {
    pub addr: u64,
    pub len: u64,
}

struct Row {
    journal: u64,
    table: u64,
    block: u64,
    first: u64,
}

const ROWS: [Row; 3] = [
    Row { journal: 16, table: 65_536, block: 65_536, first: 4 },
    Row { journal: 64, table: 262_144, block: 131_072, first: 7 },
    Row { journal: 256, table: 1_048_576, block: 1_048_576, first: 4 },
];

pub fn table_addr(device: u64, area: usize) -> u64 {
    let row = &ROWS[device as usize];
    8192 + row.journal * 4096 + area as u64 * row.table
}

pub fn node_addr(device: u64, block: usize) -> u64 {
    let row = &ROWS[device as usize];
    row.block * (row.first + block as u64)
}

pub fn table_area_of(device: u64, addr: u64) -> Option<usize> {
    (0..2).find(|&k| addr == table_addr(device, k))
}

/// ValidNodeAddr and one of the 128 blocks.
pub fn node_block_of(device: u64, addr: u64) -> Option<usize> {
    let row = &ROWS[device as usize];
    if addr % row.block != 0 {
        return None;
    }
    let k = (addr / row.block).checked_sub(row.first)?;
    if k < 128 { Some(k as usize) } else { None }
}

/// ValidIndirectionTableLocation.
pub fn table_location(device: u64, l: Location) -> bool {
    table_area_of(device, l.addr).is_some() && 0 < l.len && l.len <= ROWS[device as usize].table
}

/// ValidNodeLocation.
pub fn node_location(device: u64, l: Location) -> bool {
    let row = &ROWS[device as usize];
    l.addr % row.block == 0 && row.block * row.first <= l.addr && l.len <= row.block
}

/// The node place that 16 allows: in one of the blocks, not of length 0.
pub fn node_place(device: u64, l: Location) -> bool {
    node_block_of(device, l.addr).is_some() && l.len != 0 && l.len <= ROWS[device as usize].block
}

/// The same, in block k.
pub fn node_place_in(device: u64, k: usize, l: Location) -> bool {
    let row = &ROWS[device as usize];
    l.addr == node_addr(device, k) && l.len != 0 && l.len <= row.block
}

pub fn table_place_in(device: u64, k: usize, l: Location) -> bool {
    l.addr == table_addr(device, k) && 0 < l.len && l.len <= ROWS[device as usize].table
}

/// Two places share a byte: a sum past 64 bits is past every address.
pub fn overlap(a: Location, b: Location) -> bool {
    let passes = |x: Location, y: u64| x.addr.checked_add(x.len).is_none_or(|e| y < e);
    passes(a, b.addr) && passes(b, a.addr)
}
