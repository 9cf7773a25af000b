// The net sheet: its records, the table of codes, its reader and its writer (outline, "The net sheet", "The nineteen codes").

use crate::labels::bad_entry;

pub const NODES: usize = 1024;
pub const OUTPUTS: usize = 64;
pub const LABEL_BYTES: usize = 4096;
pub const TRAILER: usize = 16;
pub const RECORD: usize = 12;

/// The outline's number and place of a refusal ("Numbers given back").
#[derive(Clone, Copy, Debug, PartialEq, Eq)]
pub struct Refusal {
    pub answer: u32,
    pub place: usize,
}

/// What a writer gives back: 0, 0 and the image's length, or a refusal with length 0.
#[derive(Clone, Copy, Debug, PartialEq, Eq)]
pub struct Written {
    pub answer: u32,
    pub place: usize,
    pub len: usize,
}

#[inline]
pub fn refused<T>(answer: u32, place: usize) -> Result<T, Refusal> {
    Err(Refusal { answer, place })
}

#[derive(Clone, Copy, Debug, PartialEq, Eq)]
pub struct Record {
    pub code: u8,
    pub w: u8,
    pub a: u16,
    pub b: u16,
    pub c: u16,
    pub k: u32,
}

impl Record {
    pub const ZERO: Record = Record { code: 0, w: 0, a: 0, b: 0, c: 0, k: 0 };

    /// The operands that the code uses; an unused field is no operand.
    #[inline]
    pub fn operands(&self) -> ([u16; 3], usize) {
        ([self.a, self.b, self.c], row(self.code).map_or(0, |r| r.operands as usize))
    }
}

/// A netlist. Past its counts everything that a reader gave is zero.
#[derive(Clone, Debug, PartialEq, Eq)]
pub struct Net {
    pub nodes: usize,
    pub outputs: usize,
    pub labels: usize,
    pub record: [Record; NODES],
    pub output: [u16; OUTPUTS],
    pub label: [u8; LABEL_BYTES],
}

impl Net {
    pub const ZERO: Net =
        Net { nodes: 0, outputs: 0, labels: 0, record: [Record::ZERO; NODES], output: [0; OUTPUTS], label: [0; LABEL_BYTES] };

    fn clear(&mut self) {
        *self = Net::ZERO;
    }

    /// Answer 3's rule, for the counts of any netlist.
    pub fn counts_fit(&self) -> bool {
        (1..=NODES).contains(&self.nodes) && self.outputs <= OUTPUTS && self.labels <= LABEL_BYTES
    }
}

pub const IN: u8 = 0x00;
pub const CONST: u8 = 0x01;
pub const REG: u8 = 0x02;
pub const NOT: u8 = 0x10;
pub const NEG: u8 = 0x11;
pub const ANY: u8 = 0x12;
pub const PAR: u8 = 0x13;
pub const AND: u8 = 0x20;
pub const OR: u8 = 0x21;
pub const XOR: u8 = 0x22;
pub const ADD: u8 = 0x23;
pub const SUB: u8 = 0x24;
pub const EQ: u8 = 0x30;
pub const LTU: u8 = 0x31;
pub const SHL: u8 = 0x40;
pub const SHR: u8 = 0x41;
pub const MUX: u8 = 0x50;
pub const CAT: u8 = 0x51;
pub const SLICE: u8 = 0x52;

#[derive(Clone, Copy)]
enum Rule {
    Free,    // IN
    Value,   // CONST: k below 2^w
    Held,    // REG: a has width w, k below 2^w
    Same,    // every operand has width w
    Bit,     // w is 1, a any
    Compare, // w is 1, a and b equal in width
    Shift,   // a has width w, b any
    Choice,  // a has width 1, b and c width w
    Join,    // widths add up to w
    Cut,     // k + w at most a's width
}

#[derive(Clone, Copy)]
struct Row {
    code: u8,
    operands: u8,
    rule: Rule,
}

const fn r(code: u8, operands: u8, rule: Rule) -> Row {
    Row { code, operands, rule }
}

/// One table of nineteen rows: code, operand count, width rule.
const TABLE: [Row; 19] = [
    r(IN, 0, Rule::Free),
    r(CONST, 0, Rule::Value),
    r(REG, 1, Rule::Held),
    r(NOT, 1, Rule::Same),
    r(NEG, 1, Rule::Same),
    r(ANY, 1, Rule::Bit),
    r(PAR, 1, Rule::Bit),
    r(AND, 2, Rule::Same),
    r(OR, 2, Rule::Same),
    r(XOR, 2, Rule::Same),
    r(ADD, 2, Rule::Same),
    r(SUB, 2, Rule::Same),
    r(EQ, 2, Rule::Compare),
    r(LTU, 2, Rule::Compare),
    r(SHL, 2, Rule::Shift),
    r(SHR, 2, Rule::Shift),
    r(MUX, 3, Rule::Choice),
    r(CAT, 2, Rule::Join),
    r(SLICE, 1, Rule::Cut),
];

/// The table's row for each code byte; 19 where there is none.
const ROW_OF: [u8; 256] = {
    let mut rows = [19u8; 256];
    let mut i = 0;
    while i < 19 {
        rows[TABLE[i].code as usize] = i as u8;
        i += 1;
    }
    rows
};

#[inline]
fn row(code: u8) -> Option<&'static Row> {
    TABLE.get(ROW_OF[code as usize] as usize)
}

/// The largest value below 2^w, for w from 1 to 32.
#[inline]
pub fn mask(w: u8) -> u32 {
    u32::MAX >> (32 - (w as u32).clamp(1, 32))
}

/// Whether record i keeps its rule among the first records of a netlist.
fn record_good(record: &[Record], i: usize) -> bool {
    let x = &record[i];
    let Some(row) = row(x.code) else { return false };
    if !(1..=32).contains(&x.w) {
        return false;
    }
    let field = [x.a, x.b, x.c];
    let mut width = [0u8; 3];
    let below = if x.code == REG { record.len() } else { i };
    for j in 0..3 {
        if j < row.operands as usize {
            if field[j] as usize >= below {
                return false;
            }
            width[j] = record[field[j] as usize].w;
        } else if field[j] != 0 {
            return false;
        }
    }
    let [wa, wb, wc] = width;
    let (w, n, no_k) = (x.w, row.operands, x.k == 0);
    match row.rule {
        Rule::Free => no_k,
        Rule::Value => x.k <= mask(w),
        Rule::Held => wa == w && x.k <= mask(w),
        Rule::Same => no_k && wa == w && (n < 2 || wb == w),
        Rule::Bit => no_k && w == 1,
        Rule::Compare => no_k && w == 1 && wa == wb,
        Rule::Shift => no_k && wa == w,
        Rule::Choice => no_k && wa == 1 && wb == w && wc == w,
        Rule::Join => no_k && wa as u32 + wb as u32 == w as u32,
        Rule::Cut => x.k as u64 + w as u64 <= wa as u64,
    }
}

/// The checks 3 to 6 of a netlist, as reader and writer share them.
fn check(net: &Net) -> Result<(), Refusal> {
    if !net.counts_fit() {
        return refused(3, 0);
    }
    let record = &net.record[..net.nodes];
    if let Some(i) = (0..record.len()).find(|&i| !record_good(record, i)) {
        return refused(4, i);
    }
    if let Some(j) = net.output[..net.outputs].iter().position(|&o| o as usize >= net.nodes) {
        return refused(5, j);
    }
    if let Some(e) = bad_entry(&net.label[..net.labels], net.nodes) {
        return refused(6, e);
    }
    Ok(())
}

#[inline]
fn u16_at(bytes: &[u8], at: usize) -> u16 {
    u16::from_le_bytes([bytes[at], bytes[at + 1]])
}

#[inline]
fn u32_at(bytes: &[u8], at: usize) -> u32 {
    u32::from_le_bytes([bytes[at], bytes[at + 1], bytes[at + 2], bytes[at + 3]])
}

/// The three distances of a trailer that keeps the rules both sheets share. The sheet has at least 16 bytes.
pub fn trailer(sheet: &[u8], mark: &[u8; 2]) -> Option<[usize; 3]> {
    let from = sheet.len().checked_sub(TRAILER)?;
    let t = &sheet[from..];
    let d = [u32_at(t, 0) as usize, u32_at(t, 4) as usize, u32_at(t, 8) as usize];
    (d[0] <= d[1] && d[1] <= d[2] && d[2] == from && u16_at(t, 12) == 1 && t[14..] == mark[..]).then_some(d)
}

/// Writes a trailer at the front of a buffer.
pub fn put_trailer(buffer: &mut [u8], distances: [usize; 3], mark: &[u8; 2]) {
    for (i, d) in distances.iter().enumerate() {
        buffer[4 * i..4 * i + 4].copy_from_slice(&(*d as u32).to_le_bytes());
    }
    buffer[12..14].copy_from_slice(&[1, 0]);
    buffer[14..16].copy_from_slice(mark);
}

/// Reads a net sheet by 1 to 6. A refused reading leaves the netlist all zeros.
pub fn read_net_into(net: &mut Net, sheet: &[u8]) -> Result<(), Refusal> {
    let read = fill(net, sheet);
    if read.is_err() {
        net.clear();
    }
    read
}

fn fill(net: &mut Net, sheet: &[u8]) -> Result<(), Refusal> {
    if sheet.len() < TRAILER {
        return refused(1, 0);
    }
    let Some([labels, outputs, records]) = trailer(sheet, b"SN") else { return refused(2, 0) };
    if (outputs - labels) % 2 != 0 || (records - outputs) % RECORD != 0 {
        return refused(2, 0);
    }
    net.nodes = (records - outputs) / RECORD;
    net.outputs = (outputs - labels) / 2;
    net.labels = labels;
    if !net.counts_fit() {
        return refused(3, 0);
    }
    let (first, rest) = sheet.split_at(records - outputs);
    let (second, rest) = rest.split_at(outputs - labels);
    for (x, bytes) in net.record.iter_mut().zip(first.chunks_exact(RECORD)) {
        *x = Record {
            code: bytes[0],
            w: bytes[1],
            a: u16_at(bytes, 2),
            b: u16_at(bytes, 4),
            c: u16_at(bytes, 6),
            k: u32_at(bytes, 8),
        };
    }
    net.record[net.nodes..].fill(Record::ZERO);
    for (x, bytes) in net.output.iter_mut().zip(second.chunks_exact(2)) {
        *x = u16_at(bytes, 0);
    }
    net.output[net.outputs..].fill(0);
    net.label[..labels].copy_from_slice(&rest[..labels]);
    net.label[labels..].fill(0);
    check(net)
}

/// Reads a net sheet by 1 to 6.
pub fn read_net(sheet: &[u8]) -> Result<Box<Net>, Refusal> {
    let mut net = Box::new(Net::ZERO);
    read_net_into(&mut net, sheet)?;
    Ok(net)
}

/// Writes a netlist to the front of a lent buffer, by 3 to 6 and then 16. The rest of the buffer stays, and all of it on refusal.
pub fn write_net(net: &Net, buffer: &mut [u8]) -> Written {
    if let Err(Refusal { answer, place }) = check(net) {
        return Written { answer, place, len: 0 };
    }
    let (records, outputs, labels) = (RECORD * net.nodes, 2 * net.outputs, net.labels);
    let len = records + outputs + labels + TRAILER;
    if buffer.len() < len {
        return Written { answer: 16, place: 0, len: 0 };
    }
    for (x, at) in net.record[..net.nodes].iter().zip(buffer.chunks_exact_mut(RECORD)) {
        at[0] = x.code;
        at[1] = x.w;
        at[2..4].copy_from_slice(&x.a.to_le_bytes());
        at[4..6].copy_from_slice(&x.b.to_le_bytes());
        at[6..8].copy_from_slice(&x.c.to_le_bytes());
        at[8..12].copy_from_slice(&x.k.to_le_bytes());
    }
    for (x, at) in net.output[..net.outputs].iter().zip(buffer[records..].chunks_exact_mut(2)) {
        at.copy_from_slice(&x.to_le_bytes());
    }
    buffer[records + outputs..][..labels].copy_from_slice(&net.label[..labels]);
    put_trailer(&mut buffer[len - TRAILER..], [labels, outputs + labels, records + outputs + labels], b"SN");
    Written { answer: 0, place: 0, len }
}
