// Drawings to measure on: as many nodes and parts as asked, of all codes that work, each part fed, drained and joined to the one before it.

/// Both sheets of a drawing of so many nodes (at least 16 a part) in so many parts.
pub struct Sheets {
    pub net: Vec<u8>,
    pub cut: Vec<u8>,
}

/// A small generator of numbers (xorshift), so that a run can be repeated.
pub struct Numbers(pub u64);

impl Numbers {
    pub fn next(&mut self) -> u64 {
        self.0 ^= self.0 << 13;
        self.0 ^= self.0 >> 7;
        self.0 ^= self.0 << 17;
        self.0
    }

    pub fn below(&mut self, n: usize) -> usize {
        (self.next() >> 11) as usize % n
    }
}

fn trailer(sheet: &mut Vec<u8>, distances: [usize; 3], mark: &[u8; 2]) {
    for d in distances {
        sheet.extend((d as u32).to_le_bytes());
    }
    sheet.extend([1, 0]);
    sheet.extend(mark);
}

/// Labels of the first nodes, as many as the section holds, if they are wanted.
fn labels(nodes: usize, wanted: bool) -> Vec<u8> {
    let mut section = Vec::new();
    for n in 0..if wanted { nodes } else { 0 } {
        let text = format!("node {n:04}");
        if section.len() + 3 + text.len() > 4096 {
            break;
        }
        section.extend((n as u16).to_le_bytes());
        section.push(text.len() as u8);
        section.extend(text.bytes());
    }
    section
}

/// Every node has 16 bits but the few that choose; each part begins with an IN, and ends in an output.
pub fn sheets(nodes: usize, parts: usize, labelled: bool) -> Sheets {
    let mut numbers = Numbers(0x9E37_79B9_7F4A_7C15 ^ (nodes * 64 + parts) as u64);
    let part_of = |n: usize| n * parts / nodes;
    let first_of = |p: usize| (p * nodes).div_ceil(parts);
    let mut records: Vec<u8> = Vec::new();
    let mut outputs: Vec<u16> = Vec::new();
    let mut uses: Vec<Vec<bool>> = vec![vec![false; parts]; nodes];
    for n in 0..nodes {
        let p = part_of(n);
        let from = first_of(p);
        let here = n - from;
        // an operand of the same part that has 16 bits: every fourth node may choose, so it stands at 3 modulo 4
        let near = |numbers: &mut Numbers| loop {
            let k = from + here - 1 - numbers.below(here.min(12));
            if (k - from) % 8 != 7 {
                break k as u16;
            }
        };
        let record: (u8, u8, u16, u16, u16, u32) = if here == 0 {
            (0x00, 16, 0, 0, 0, 0)
        } else if here == 1 && p > 0 {
            // reads the part before, by a channel
            let k = first_of(p) - 3;
            (0x23, 16, if (k - first_of(p - 1)) % 8 == 7 { k as u16 - 1 } else { k as u16 }, n as u16 - 1, 0, 0)
        } else if here % 8 == 7 {
            (0x31, 1, near(&mut numbers), near(&mut numbers), 0, 0)
        } else if here % 8 == 0 && here > 8 {
            let choice = n as u16 - 1;
            (0x50, 16, choice, near(&mut numbers), near(&mut numbers), 0)
        } else {
            let (a, b) = (near(&mut numbers), near(&mut numbers));
            match numbers.below(12) {
                0 | 1 => (0x02, 16, n as u16 - 1 - u16::from((here - 1) % 8 == 7), 0, 0, n as u32),
                2 => (0x10, 16, a, 0, 0, 0),
                3 => (0x20, 16, a, b, 0, 0),
                4 => (0x21, 16, a, b, 0, 0),
                5 | 6 => (0x22, 16, a, b, 0, 0),
                7 | 8 => (0x23, 16, a, b, 0, 0),
                9 => (0x24, 16, a, b, 0, 0),
                10 => (0x40, 16, a, b, 0, 0),
                _ => (0x11, 16, a, 0, 0, 0),
            }
        };
        let (code, w, a, b, c, k) = record;
        let count = match code {
            0x00 | 0x01 => 0,
            0x02 | 0x10..=0x1F => 1,
            0x50 => 3,
            _ => 2,
        };
        for operand in &[a, b, c][..count] {
            if part_of(*operand as usize) != p {
                uses[*operand as usize][p] = true;
            }
        }
        records.extend([code, w]);
        for operand in [a, b, c] {
            records.extend(operand.to_le_bytes());
        }
        records.extend(k.to_le_bytes());
        if here > 0 && (n + 1 == nodes || part_of(n + 1) != p) {
            outputs.push(n as u16);
        }
    }
    let channels: usize = uses.iter().flatten().filter(|&&u| u).count();
    let queues = parts + channels + outputs.len();
    let text = labels(nodes, labelled);
    let mut net = records;
    let r = net.len();
    for o in &outputs {
        net.extend(o.to_le_bytes());
    }
    net.extend(&text);
    let (l, o) = (text.len(), 2 * outputs.len());
    trailer(&mut net, [l, l + o, l + o + r], b"SN");
    let mut cut: Vec<u8> = (0..nodes).map(|n| part_of(n) as u8).collect();
    cut.extend(std::iter::repeat(4).take(queues));
    cut.extend(&text);
    trailer(&mut cut, [l, l + queues, l + queues + nodes], b"SC");
    Sheets { net, cut }
}
