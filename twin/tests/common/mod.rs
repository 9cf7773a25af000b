// Shared by the tests: sheets by their records, a small random source, and random drawings.
#![allow(dead_code)]

use twin::sheets::{ADD, AND, ANY, CAT, CONST, EQ, IN, LTU, MUX, NEG, NOT, OR, PAR, REG, SHL, SHR, SLICE, SUB, XOR};
use twin::Record;

pub const BENCH_CUT: [u8; 25] = [
    0x00, 0x01, 0x00, 0x01, 0x01, 0x01, 0x01, 0x01, 0x01, 0, 0, 0, 0, 5, 0, 0, 0, 9, 0, 0, 0, 1, 0, 0x53, 0x43,
];

pub fn bench_net() -> Vec<u8> {
    let text = "00 08 00 00 00 00 00 00 00 00 00 00 02 08 02 00 00 00 00 00 05 00 00 00 23 08 00 00 01 00 00 00 00 00 00 00
        10 08 01 00 00 00 00 00 00 00 00 00 02 00 03 00 02 00 03 73 75 6D 06 00 00 00 0A 00 00 00 3A 00 00 00 01 00 53 4E";
    text.split_whitespace().map(|b| u8::from_str_radix(b, 16).unwrap()).collect()
}

pub fn rec(code: u8, w: u8, a: u16, b: u16, c: u16, k: u32) -> Record {
    Record { code, w, a, b, c, k }
}

fn trailer(distances: [usize; 3], mark: &[u8]) -> Vec<u8> {
    let mut t: Vec<u8> = distances.iter().flat_map(|d| (*d as u32).to_le_bytes()).collect();
    t.extend([1, 0]);
    t.extend(mark);
    t
}

pub fn net_sheet(nodes: &[Record], outputs: &[u16], labels: &[u8]) -> Vec<u8> {
    let mut s = Vec::new();
    for x in nodes {
        s.extend([x.code, x.w]);
        s.extend([x.a, x.b, x.c].iter().flat_map(|v| v.to_le_bytes()));
        s.extend(x.k.to_le_bytes());
    }
    s.extend(outputs.iter().flat_map(|v| v.to_le_bytes()));
    s.extend(labels);
    let (l, o) = (labels.len(), 2 * outputs.len());
    s.extend(trailer([l, l + o, l + o + 12 * nodes.len()], b"SN"));
    s
}

pub fn cut_sheet(parts: &[u8], depths: &[u8], labels: &[u8]) -> Vec<u8> {
    let mut s = [parts, depths, labels].concat();
    let (l, d) = (labels.len(), depths.len());
    s.extend(trailer([l, l + d, l + d + parts.len()], b"SC"));
    s
}

pub struct Chance(pub u64);

impl Chance {
    pub fn next(&mut self) -> u32 {
        self.0 ^= self.0 << 13;
        self.0 ^= self.0 >> 7;
        self.0 ^= self.0 << 17;
        (self.0.wrapping_mul(0x2545F4914F6CDD1D) >> 32) as u32
    }

    pub fn below(&mut self, n: usize) -> usize {
        self.next() as usize % n
    }

    pub fn of<T: Copy>(&mut self, all: &[T]) -> T {
        all[self.below(all.len())]
    }
}

pub fn most(w: u8) -> u32 {
    ((1u64 << w) - 1) as u32
}

/// A good drawing of so many nodes.
pub fn any_nodes(chance: &mut Chance, count: usize, ins: usize) -> Vec<Record> {
    let codes = [IN, CONST, REG, NOT, NEG, ANY, PAR, AND, OR, XOR, ADD, SUB, EQ, LTU, SHL, SHR, MUX, CAT, SLICE];
    let mut nodes: Vec<Record> = Vec::new();
    let (mut seen, widths) = (0, [1u8, 1, 4, 8, 8, 31, 32]);
    while nodes.len() < count {
        let i = nodes.len();
        let code = if i < ins.min(2) { IN } else { chance.of(&codes) };
        let w = chance.of(&widths);
        let same = |chance: &mut Chance, nodes: &[Record], w: u8| {
            let fit: Vec<u16> = (0..nodes.len()).filter(|&m| nodes[m].w == w).map(|m| m as u16).collect();
            (!fit.is_empty()).then(|| chance.of(&fit))
        };
        let a = if i > 0 { chance.below(i) as u16 } else { 0 };
        let wa = if i > 0 { nodes[a as usize].w } else { 0 };
        let x = match code {
            IN if seen < ins => rec(IN, w, 0, 0, 0, 0),
            CONST if chance.below(3) == 0 => rec(CONST, w, 0, 0, 0, chance.next() & most(w)),
            REG => rec(REG, w, 0, 0, 0, chance.next() & most(w)),
            _ if i == 0 => continue,
            NOT | NEG => rec(code, wa, a, 0, 0, 0),
            ANY | PAR => rec(code, 1, a, 0, 0, 0),
            AND | OR | XOR | ADD | SUB => rec(code, wa, a, same(chance, &nodes, wa).unwrap(), 0, 0),
            EQ | LTU => rec(code, 1, a, same(chance, &nodes, wa).unwrap(), 0, 0),
            SHL | SHR => rec(code, wa, a, chance.below(i) as u16, 0, 0),
            MUX => match same(chance, &nodes, 1) {
                Some(s) => rec(MUX, wa, s, a, same(chance, &nodes, wa).unwrap(), 0),
                None => continue,
            },
            CAT => {
                let b = chance.below(i) as u16;
                let w = wa + nodes[b as usize].w;
                if w > 32 {
                    continue;
                }
                rec(CAT, w, a, b, 0, 0)
            }
            SLICE => {
                let k = chance.below(wa as usize) as u32;
                rec(SLICE, 1 + chance.below(wa as usize - k as usize) as u8, a, 0, 0, k)
            }
            _ => continue,
        };
        seen += (x.code == IN) as usize;
        nodes.push(x);
    }
    for i in 0..count {
        if nodes[i].code == REG {
            let fit: Vec<u16> = (0..count).filter(|&m| nodes[m].w == nodes[i].w).map(|m| m as u16).collect();
            nodes[i].a = chance.of(&fit);
        }
    }
    nodes
}
