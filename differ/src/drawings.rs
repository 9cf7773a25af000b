// Good drawings and cuts of all sizes, and their sheets.

use crate::chance::Chance;
use twin::sheets::{ADD, AND, ANY, CAT, CONST, EQ, IN, LTU, MUX, NEG, NOT, OR, PAR, REG, SHL, SHR, SLICE, SUB, XOR};
use twin::Record;

pub const CODES: [u8; 19] = [IN, CONST, REG, NOT, NEG, ANY, PAR, AND, OR, XOR, ADD, SUB, EQ, LTU, SHL, SHR, MUX, CAT, SLICE];
const NODES: usize = 1024;
const OUTPUTS: usize = 64;
const QUEUES: usize = 512;
const LABEL_BYTES: usize = 4096;

#[derive(Clone, Default)]
pub struct Drawing {
    pub nodes: Vec<Record>,
    pub outputs: Vec<u16>,
    pub labels: Vec<u8>,
}

#[derive(Clone, Default)]
pub struct Cutting {
    pub parts: Vec<u8>,
    pub depths: Vec<u8>,
    pub labels: Vec<u8>,
}

#[derive(Clone, Default)]
pub struct Pair {
    pub net: Drawing,
    pub cut: Cutting,
}

fn trailer(sheet: &mut Vec<u8>, distances: [usize; 3], mark: &[u8; 2]) {
    for d in distances {
        sheet.extend((d as u32).to_le_bytes());
    }
    sheet.extend([1, 0]);
    sheet.extend(mark);
}

impl Drawing {
    pub fn sheet(&self) -> Vec<u8> {
        let mut s = Vec::new();
        for x in &self.nodes {
            s.extend([x.code, x.w]);
            for operand in [x.a, x.b, x.c] {
                s.extend(operand.to_le_bytes());
            }
            s.extend(x.k.to_le_bytes());
        }
        for node in &self.outputs {
            s.extend(node.to_le_bytes());
        }
        s.extend(&self.labels);
        let (l, o, r) = (self.labels.len(), 2 * self.outputs.len(), 12 * self.nodes.len());
        trailer(&mut s, [l, l + o, l + o + r], b"SN");
        s
    }

    pub fn ins(&self) -> usize {
        self.nodes.iter().filter(|x| x.code == IN).count()
    }
}

impl Cutting {
    pub fn sheet(&self) -> Vec<u8> {
        let mut s = [&self.parts[..], &self.depths, &self.labels].concat();
        let (l, d, p) = (self.labels.len(), self.depths.len(), self.parts.len());
        trailer(&mut s, [l, l + d, l + d + p], b"SC");
        s
    }
}

/// A good labels section for so many nodes.
pub fn labels(chance: &mut Chance, nodes: usize) -> Vec<u8> {
    let mut section = Vec::new();
    let (skip, room) = match chance.below(8) {
        0..=2 => return section,
        3..=5 => (nodes / 3 + 1, LABEL_BYTES),
        6 => (1, LABEL_BYTES),
        _ => (2, chance.from_to(0, LABEL_BYTES)),
    };
    let mut node = chance.below(skip);
    while node < nodes {
        let left = room - section.len();
        if left < 4 {
            break;
        }
        // As long as may be, or such that another entry can still fill the section.
        let mut length = chance.from_to(1, 31).min(left - 3);
        let after = left - 3 - length;
        if room == LABEL_BYTES && (1..4).contains(&after) {
            length = if length + after <= 31 { length + after } else { length - (4 - after) };
        }
        section.extend((node as u16).to_le_bytes());
        section.push(length as u8);
        for _ in 0..length {
            section.push(if chance.one_in(6) { chance.of(&[0x20, 0x7E]) } else { chance.from_to(0x20, 0x7E) as u8 });
        }
        node += chance.from_to(1, skip);
    }
    section
}

/// How a drawing looks.
struct Style {
    size: usize,
    most_ins: usize,
    widths: Vec<u8>,
    codes: Vec<u8>,
    /// Operands from the last so many nodes of a width; 0: from anywhere.
    near: usize,
}

fn style(chance: &mut Chance, outputs: usize, size: usize) -> Style {
    let widths: Vec<u8> = match chance.below(6) {
        0 => vec![1],
        1 => vec![32],
        2 => vec![1, 32],
        3 => (1..=32).collect(),
        4 => vec![chance.from_to(1, 32) as u8, chance.from_to(1, 32) as u8, 1],
        _ => vec![1, 2, 4, 7, 8, 16, 31, 32],
    };
    let mut codes: Vec<u8> = CODES.to_vec();
    match chance.below(8) {
        0 => codes.extend([REG; 30]),
        1 => codes.extend([IN; 40]),
        2 => codes = vec![IN, CONST, ADD, ADD, ADD, SUB, XOR, REG],
        3 => codes.extend([CAT, SLICE, MUX, CAT, SLICE, MUX, CAT, SLICE, MUX, CAT, SLICE]),
        4 => codes.extend([SHL, SHR, NEG, ANY, PAR, LTU, EQ, SHL, SHR]),
        _ => {}
    }
    let most_ins = QUEUES - outputs;
    let most_ins = if chance.one_in(3) { most_ins } else { chance.below(most_ins.min(size / 4 + 2)) };
    Style { size, most_ins, widths, codes, near: chance.of(&[0, 0, 0, 1, 2, 8]) }
}

/// So many nodes from 1 to 1,024, small ones more often.
fn size(chance: &mut Chance) -> usize {
    match chance.below(100) {
        0..=34 => chance.from_to(1, 12),
        35..=69 => chance.from_to(13, 60),
        70..=87 => chance.from_to(61, 250),
        88..=95 => chance.from_to(251, 1023),
        _ => NODES,
    }
}

struct Growing {
    nodes: Vec<Record>,
    by_width: Vec<Vec<u16>>,
    near: usize,
}

impl Growing {
    fn from(&self, chance: &mut Chance, fit: &[u16]) -> u16 {
        let tail = if self.near == 0 { fit.len() } else { self.near.min(fit.len()) };
        fit[fit.len() - 1 - chance.below(tail)]
    }

    fn any(&self, chance: &mut Chance) -> u16 {
        let tail = if self.near == 0 { self.nodes.len() } else { self.near.min(self.nodes.len()) };
        (self.nodes.len() - 1 - chance.below(tail)) as u16
    }

    fn width(&self, node: u16) -> u8 {
        self.nodes[node as usize].w
    }

    fn of_width(&self, chance: &mut Chance, w: u8) -> Option<u16> {
        let fit = &self.by_width[w as usize];
        (!fit.is_empty()).then(|| self.from(chance, fit))
    }

    fn push(&mut self, x: Record) {
        self.by_width[x.w as usize].push(self.nodes.len() as u16);
        self.nodes.push(x);
    }

    /// A record of the code, where there are operands for it.
    fn record(&self, chance: &mut Chance, code: u8, w: u8) -> Option<Record> {
        let x = |w: u8, a: u16, b: u16, c: u16, k: u32| Some(Record { code, w, a, b, c, k });
        match code {
            IN => return x(w, 0, 0, 0, 0),
            CONST | REG => return x(w, 0, 0, 0, chance.value(w)),
            _ if self.nodes.is_empty() => return None,
            _ => {}
        }
        let a = self.any(chance);
        let wa = self.width(a);
        match code {
            NOT | NEG => x(wa, a, 0, 0, 0),
            ANY | PAR => x(1, a, 0, 0, 0),
            AND | OR | XOR | ADD | SUB => x(wa, a, self.of_width(chance, wa)?, 0, 0),
            EQ | LTU => x(1, a, self.of_width(chance, wa)?, 0, 0),
            SHL | SHR => x(wa, a, self.any(chance), 0, 0),
            MUX => x(wa, self.of_width(chance, 1)?, a, self.of_width(chance, wa)?, 0),
            CAT => {
                let fit: Vec<u8> = (1..=32 - wa).filter(|&w| !self.by_width[w as usize].is_empty()).collect();
                if fit.is_empty() {
                    return None;
                }
                let wb = if chance.one_in(3) { *fit.last().unwrap() } else { chance.of(&fit) };
                let b = self.of_width(chance, wb)?;
                if chance.one_in(2) {
                    x(wa + wb, a, b, 0, 0)
                } else {
                    x(wa + wb, b, a, 0, 0)
                }
            }
            _ => {
                let k = if chance.one_in(3) { 0 } else { chance.below(wa as usize) };
                let most = wa as usize - k;
                let w = if chance.one_in(3) { most } else { chance.from_to(1, most) };
                x(w as u8, a, 0, 0, k as u32)
            }
        }
    }
}

/// A good drawing of so many nodes.
pub fn drawing_of(chance: &mut Chance, size: usize) -> Drawing {
    let outputs = match chance.below(20) {
        0..=1 => 0,
        2..=13 => chance.from_to(1, 8),
        14..=18 => chance.from_to(1, OUTPUTS),
        _ => OUTPUTS,
    };
    let style = style(chance, outputs, size);
    let mut growing = Growing { nodes: Vec::new(), by_width: vec![Vec::new(); 33], near: style.near };
    let mut ins = 0;
    while growing.nodes.len() < style.size {
        let (code, w) = (chance.of(&style.codes), chance.of(&style.widths));
        let code = if code == IN && ins >= style.most_ins { CONST } else { code };
        if let Some(x) = growing.record(chance, code, w) {
            ins += (x.code == IN) as usize;
            growing.push(x);
        }
    }
    let Growing { mut nodes, by_width, .. } = growing;
    for i in 0..nodes.len() {
        if nodes[i].code == REG {
            let fit = &by_width[nodes[i].w as usize];
            nodes[i].a = if chance.one_in(6) { i as u16 } else { chance.of(fit) };
        }
    }
    let outputs = (0..outputs).map(|_| chance.below(nodes.len()) as u16).collect();
    let labels = labels(chance, nodes.len());
    Drawing { nodes, outputs, labels }
}

/// The operands that a record's code uses.
pub fn operands(x: &Record) -> Vec<u16> {
    let (all, count) = x.operands();
    all[..count].to_vec()
}

/// How many queues a cut makes, and which parts have one.
fn queues(net: &Drawing, parts: &[u8]) -> (usize, u64) {
    let mut takers = vec![0u32; net.nodes.len()];
    let mut joined = 0u64;
    for (n, x) in net.nodes.iter().enumerate() {
        joined |= ((x.code == IN) as u64) << parts[n];
        for m in operands(x) {
            if parts[m as usize] != parts[n] {
                takers[m as usize] |= 1 << parts[n];
                joined |= 1 << parts[n] | 1 << parts[m as usize];
            }
        }
    }
    for &n in &net.outputs {
        joined |= 1 << parts[n as usize];
    }
    (net.ins() + net.outputs.len() + takers.iter().map(|t| t.count_ones() as usize).sum::<usize>(), joined)
}

/// Numbers the parts from 0 on, none left out.
fn renumber(parts: &mut [u8]) -> usize {
    let mut there = [false; 256];
    parts.iter().for_each(|&p| there[p as usize] = true);
    let mut number = [0u8; 256];
    let mut count = 0;
    for p in 0..256 {
        number[p] = count as u8;
        count += there[p] as usize;
    }
    parts.iter_mut().for_each(|p| *p = number[*p as usize]);
    count
}

/// Part numbers that make a good cut, and how many queues; none for a drawing that has no good cut into the parts tried.
fn parted(chance: &mut Chance, net: &Drawing) -> Option<(Vec<u8>, usize)> {
    let count = match chance.below(5) {
        0 => 1,
        1 => 2,
        2 => 32,
        _ => chance.from_to(1, 32),
    }
    .min(net.nodes.len());
    let n = net.nodes.len();
    let mut parts: Vec<u8> = match chance.below(4) {
        0 => (0..n).map(|i| (i * count / n) as u8).collect(),
        1 => (0..n).map(|i| (i % count) as u8).collect(),
        2 => (0..n).map(|_| if chance.one_in(4) { chance.below(count) as u8 } else { 0 }).collect(),
        _ => (0..n).map(|_| chance.below(count) as u8).collect(),
    };
    for turn in 0.. {
        let count = renumber(&mut parts);
        let (queues, joined) = queues(net, &parts);
        if let Some(alone) = (0..count).find(|p| joined >> p & 1 == 0) {
            if count == 1 {
                return None;
            }
            let other = (alone + 1) % count;
            parts.iter_mut().filter(|p| **p as usize == alone).for_each(|p| *p = other as u8);
        } else if queues > QUEUES {
            if turn % 6 == 5 {
                parts.iter_mut().for_each(|p| *p /= 2);
            }
            // A node goes where its first operand is, so that fewer cross.
            for n in 0..parts.len() {
                if let Some(&m) = operands(&net.nodes[n]).first() {
                    if chance.one_in(4) {
                        parts[n] = parts[m as usize];
                    }
                }
            }
        } else {
            return Some((parts, queues));
        }
    }
    None
}

pub fn depths(chance: &mut Chance, queues: usize) -> Vec<u8> {
    let (low, high) = chance.of(&[(1, 1), (1, 2), (1, 16), (16, 16), (1, 4)]);
    (0..queues).map(|_| chance.from_to(low, high) as u8).collect()
}

/// A pair of sheets that opening accepts.
pub fn pair(chance: &mut Chance) -> Pair {
    let size = size(chance);
    pair_of(chance, size)
}

pub fn pair_of(chance: &mut Chance, size: usize) -> Pair {
    loop {
        let mut net = drawing_of(chance, size);
        let Some((parts, mut queues)) = parted(chance, &net) else { continue };
        // Sometimes as many queues as there may be.
        if size > 300 && chance.one_in(3) {
            queues += crowd(chance, &mut net, QUEUES - queues);
        }
        let labels = labels(chance, net.nodes.len());
        return Pair { net, cut: Cutting { parts, depths: depths(chance, queues), labels } };
    }
}

/// Up to so many queues more: outputs, and INs in the place of constants.
fn crowd(chance: &mut Chance, net: &mut Drawing, wanted: usize) -> usize {
    let mut more = 0;
    for x in net.nodes.iter_mut() {
        if x.code == CONST && more < wanted {
            (x.code, x.k) = (IN, 0);
            more += 1;
        }
    }
    while more < wanted && net.outputs.len() < OUTPUTS {
        net.outputs.push(chance.below(net.nodes.len()) as u16);
        more += 1;
    }
    more
}

/// A good drawing whose cut has 513 queues, one for each depth.
pub fn overfull(chance: &mut Chance) -> Pair {
    loop {
        let size = chance.from_to(700, NODES);
        let mut net = drawing_of(chance, size);
        let Some((parts, found)) = parted(chance, &net) else { continue };
        let queues = found + crowd(chance, &mut net, QUEUES + 1 - found);
        if queues == QUEUES + 1 {
            return Pair { net, cut: Cutting { parts, depths: depths(chance, queues), labels: Vec::new() } };
        }
    }
}
