// Damage: drawings, cuts and sheets made wrong in one place, each aimed at one cause of one answer; and bytes made wrong anywhere.

use crate::chance::Chance;
use crate::drawings::{drawing_of, operands, overfull, pair_of, Drawing, Pair, CODES};
use twin::sheets::{CONST, IN, REG};
use twin::Record;

/// What is made wrong, by the answer that it is aimed at.
#[derive(Clone, Copy, PartialEq, Eq, PartialOrd, Ord)]
pub enum Aim {
    /// Fewer bytes than a trailer, of the net sheet or of the cut sheet.
    Short { cut: bool },
    /// One of the trailer's rules, by number.
    Trailer { cut: bool, rule: u8 },
    NoNodes,
    ManyNodes,
    ManyOutputs,
    ManyLabels { cut: bool },
    /// A field of a record of the code: code, width, a, b, c, k.
    Field { code: u8, field: u8 },
    Output,
    Entry { cut: bool, rule: u8 },
    PartCount { more: bool },
    PartNumber,
    ManyQueues,
    DepthCount { more: bool },
    Depth { deep: bool },
    PartLeftOut,
    PartAlone,
}

const TRAILER_RULES: u8 = 8;
const ENTRY_RULES: u8 = 9;

impl Aim {
    pub fn answer(self) -> u32 {
        match self {
            Aim::Short { cut: false } => 1,
            Aim::Trailer { cut: false, .. } => 2,
            Aim::NoNodes | Aim::ManyNodes | Aim::ManyOutputs | Aim::ManyLabels { cut: false } => 3,
            Aim::Field { .. } => 4,
            Aim::Output => 5,
            Aim::Entry { cut: false, .. } => 6,
            Aim::Short { cut: true } | Aim::Trailer { cut: true, .. } | Aim::ManyLabels { cut: true } => 7,
            Aim::PartCount { .. } | Aim::PartNumber => 8,
            Aim::ManyQueues | Aim::DepthCount { .. } | Aim::Depth { .. } => 9,
            Aim::PartLeftOut | Aim::PartAlone => 10,
            Aim::Entry { cut: true, .. } => 11,
        }
    }

    pub fn name(self) -> String {
        let sheet = |cut: bool| if cut { "cut" } else { "net" };
        match self {
            Aim::Short { cut } => format!("{} sheet under 16 bytes", sheet(cut)),
            Aim::Trailer { cut, rule } => {
                let rules = [
                    "labels above the middle section",
                    "middle section above the first",
                    "third distance too small",
                    "third distance too large",
                    "edition",
                    "mark",
                    "odd outputs",
                    "records no multiple of 12",
                ];
                format!("{} trailer: {}", sheet(cut), rules[rule as usize])
            }
            Aim::NoNodes => "no nodes".into(),
            Aim::ManyNodes => "1,025 nodes".into(),
            Aim::ManyOutputs => "65 outputs".into(),
            Aim::ManyLabels { cut } => format!("4,097 {} label bytes", sheet(cut)),
            Aim::Field { code, field } => {
                format!("record {code:02x}: {}", ["code", "width", "a", "b", "c", "k"][field as usize])
            }
            Aim::Output => "output names no node".into(),
            Aim::Entry { cut, rule } => {
                let rules = [
                    "no such node",
                    "the same node again",
                    "a smaller node",
                    "length 0",
                    "length over 31",
                    "cut off in its text",
                    "cut off in its head",
                    "byte below 20",
                    "byte above 7e",
                ];
                format!("{} label entry: {}", sheet(cut), rules[rule as usize])
            }
            Aim::PartCount { more } => format!("part numbers: {}", if more { "too many" } else { "too few" }),
            Aim::PartNumber => "part number above 31".into(),
            Aim::ManyQueues => "513 queues".into(),
            Aim::DepthCount { more } => format!("depths: {}", if more { "too many" } else { "too few" }),
            Aim::Depth { deep } => (if deep { "depth above 16" } else { "depth 0" }).into(),
            Aim::PartLeftOut => "part number left out".into(),
            Aim::PartAlone => "part with nodes and no queue".into(),
        }
    }

    /// All aims, each once.
    pub fn all() -> Vec<Aim> {
        let mut all = vec![Aim::NoNodes, Aim::ManyNodes, Aim::ManyOutputs, Aim::Output, Aim::PartNumber, Aim::ManyQueues];
        all.extend([Aim::PartLeftOut, Aim::PartAlone]);
        for cut in [false, true] {
            all.extend([Aim::Short { cut }, Aim::ManyLabels { cut }]);
            // The cut's trailer has no rule on even numbers or multiples of 12.
            all.extend((0..if cut { 6 } else { TRAILER_RULES }).map(|rule| Aim::Trailer { cut, rule }));
            all.extend((0..ENTRY_RULES).map(|rule| Aim::Entry { cut, rule }));
            all.extend([Aim::PartCount { more: cut }, Aim::DepthCount { more: cut }, Aim::Depth { deep: cut }]);
        }
        for code in CODES {
            all.extend((0..6).map(|field| Aim::Field { code, field }));
        }
        all
    }

    /// A good pair that can be made wrong so.
    pub fn pair(self, chance: &mut Chance) -> Pair {
        match self {
            Aim::ManyQueues => overfull(chance),
            Aim::ManyLabels { .. } => {
                let size = chance.from_to(140, 400);
                pair_of(chance, size)
            }
            Aim::Field { code, .. } => loop {
                let size = chance.from_to(4, 60);
                let pair = pair_of(chance, size);
                if pair.net.nodes.iter().any(|x| x.code == code) {
                    return pair;
                }
            },
            _ => {
                let size = if chance.one_in(8) { chance.from_to(61, 1024) } else { chance.from_to(2, 60) };
                pair_of(chance, size)
            }
        }
    }

    /// Makes the drawing or the cut wrong, where the aim is at one of them.
    pub fn bend(self, chance: &mut Chance, pair: &mut Pair) {
        let (net, cut) = (&mut pair.net, &mut pair.cut);
        match self {
            Aim::NoNodes => net.nodes.clear(),
            Aim::ManyNodes => net.nodes.resize(1025, Record { code: CONST, w: 1, ..Record::ZERO }),
            Aim::ManyOutputs => net.outputs.resize(65, 0),
            Aim::ManyLabels { cut: false } => long_labels(&mut net.labels),
            Aim::ManyLabels { cut: true } => long_labels(&mut cut.labels),
            Aim::Field { code, field } => bend_record(chance, net, code, field),
            Aim::Output => {
                let bad = if chance.one_in(2) { net.nodes.len() as u16 } else { chance.of(&[0xFFFF, 0x8000, 1024]) };
                if net.outputs.is_empty() {
                    net.outputs.push(0);
                }
                let j = chance.below(net.outputs.len());
                net.outputs[j] = bad;
            }
            Aim::Entry { cut: false, rule } => bend_entry(chance, &mut net.labels, net.nodes.len(), rule),
            Aim::Entry { cut: true, rule } => bend_entry(chance, &mut cut.labels, net.nodes.len(), rule),
            Aim::PartCount { more: true } => cut.parts.push(chance.of(&[0, 31, 40])),
            Aim::PartCount { more: false } => drop(cut.parts.pop()),
            Aim::PartNumber => {
                if !cut.parts.is_empty() {
                    let n = chance.below(cut.parts.len());
                    cut.parts[n] = chance.of(&[32, 33, 64, 255]);
                }
            }
            Aim::DepthCount { more: true } => cut.depths.push(chance.of(&[1, 16, 0])),
            Aim::DepthCount { more: false } => drop(cut.depths.pop()),
            Aim::Depth { deep } => {
                if !cut.depths.is_empty() {
                    let q = chance.below(cut.depths.len());
                    cut.depths[q] = if deep { chance.of(&[17, 32, 128, 255]) } else { 0 };
                }
            }
            Aim::PartLeftOut => {
                let count = cut.parts.iter().max().map_or(0, |p| p.saturating_add(1));
                let from = chance.below(count as usize + 1) as u8;
                for p in cut.parts.iter_mut() {
                    *p += (*p >= from && *p < 31) as u8;
                }
                if from == count {
                    if let Some(p) = cut.parts.last_mut() {
                        *p = 31;
                    }
                }
            }
            Aim::PartAlone => {
                let count = cut.parts.iter().max().map_or(0, |p| p.saturating_add(1)).min(31);
                for _ in 0..chance.from_to(1, 3) {
                    if net.nodes.len() < 1024 {
                        net.nodes.push(Record { code: CONST, w: 8, k: 7, ..Record::ZERO });
                        cut.parts.push(count);
                    }
                }
            }
            Aim::Short { .. } | Aim::Trailer { .. } | Aim::ManyQueues => {}
        }
    }

    /// Makes the sheets wrong, where the aim is at their bytes.
    pub fn tear(self, chance: &mut Chance, net: &mut Vec<u8>, cut: &mut Vec<u8>) {
        match self {
            Aim::Short { cut: of_cut } => {
                let sheet = if of_cut { cut } else { net };
                let length = if chance.one_in(3) { 15 } else { chance.below(16) };
                if chance.one_in(2) {
                    sheet.truncate(length);
                } else {
                    sheet.drain(..sheet.len() - length.min(sheet.len()));
                }
            }
            Aim::Trailer { cut: of_cut, rule } => {
                let sheet = if of_cut { cut } else { net };
                if sheet.len() >= 16 {
                    tear_trailer(chance, sheet, rule);
                }
            }
            _ => {}
        }
    }
}

fn distance(sheet: &[u8], i: usize) -> u32 {
    let at = sheet.len() - 16 + 4 * i;
    u32::from_le_bytes([sheet[at], sheet[at + 1], sheet[at + 2], sheet[at + 3]])
}

fn set_distance(sheet: &mut [u8], i: usize, d: u32) {
    let at = sheet.len() - 16 + 4 * i;
    sheet[at..at + 4].copy_from_slice(&d.to_le_bytes());
}

fn tear_trailer(chance: &mut Chance, sheet: &mut [u8], rule: u8) {
    let end = sheet.len();
    let [d0, d1, d2] = [0, 1, 2].map(|i| distance(sheet, i));
    match rule {
        0 => {
            let d = chance.of(&[d1.wrapping_add(1), d1.wrapping_add(2), d2, d2.wrapping_add(1), u32::MAX]);
            set_distance(sheet, 0, d)
        }
        1 => {
            let d = chance.of(&[d2.wrapping_add(1), d2.wrapping_add(12), d2.wrapping_add(2), 0x8000_0000, u32::MAX]);
            set_distance(sheet, 1, d)
        }
        2 => {
            let d = chance.of(&[d2.wrapping_sub(1), d2.wrapping_sub(12), d1, 0]);
            set_distance(sheet, 2, d)
        }
        3 => {
            let d = chance.of(&[d2.wrapping_add(1), d2.wrapping_add(12), d2.wrapping_add(16), u32::MAX, d2 | 0x1_0000]);
            set_distance(sheet, 2, d)
        }
        4 => {
            let (at, b) = chance.of(&[(4, 0), (4, 2), (3, 1), (4, 255), (3, 128)]);
            sheet[end - at] = b
        }
        5 => {
            let (at, b) = chance.of(&[(2, b's'), (2, 0), (1, b'N'), (1, b'C'), (1, b'S'), (1, b'n'), (2, b'N')]);
            sheet[end - at] = b
        }
        6 => set_distance(sheet, 0, if d0 > 0 && chance.one_in(2) { d0 - 1 } else { d0 + 1 }),
        _ => {
            let d = if d1 >= d0 + 2 && chance.one_in(2) { d1 - 2 } else { d1 + chance.of(&[2, 4, 10]) };
            set_distance(sheet, 1, d)
        }
    }
}

fn long_labels(labels: &mut Vec<u8>) {
    labels.clear();
    for n in 0..120u16 {
        labels.extend(n.to_le_bytes());
        labels.push(31);
        labels.extend([b'x'; 31]);
    }
    // 4,080 bytes; an entry of 17 more.
    labels.extend(120u16.to_le_bytes());
    labels.push(14);
    labels.extend([b'y'; 14]);
}

fn bend_record(chance: &mut Chance, net: &mut Drawing, code: u8, field: u8) {
    let which: Vec<usize> = (0..net.nodes.len()).filter(|&n| net.nodes[n].code == code).collect();
    if which.is_empty() {
        return;
    }
    let n = chance.of(&which);
    let count = net.nodes.len();
    let used = operands(&net.nodes[n]).len();
    let w = net.nodes[n].w;
    let bad_operand = |chance: &mut Chance, slot: usize, net: &Drawing| -> u16 {
        if slot >= used {
            return chance.of(&[1, 0xFFFF, 0x100, n as u16 | 1]);
        }
        if chance.one_in(2) {
            // No such node, or one that is not before its own.
            let first = if code == REG { count } else { n };
            return chance.of(&[first as u16, count as u16, 0xFFFF, 1024, 0x8000 | first as u16]);
        }
        // Any node: one of another width, as often as not.
        chance.below(net.nodes.len()) as u16
    };
    match field {
        0 => net.nodes[n].code = chance.of(&[0x03, 0x0F, 0x14, 0x1F, 0x25, 0x2F, 0x32, 0x3F, 0x42, 0x4F, 0x53, 0x5F, 0x60, 0x80, 0xFF]),
        1 => net.nodes[n].w = chance.of(&[0, 33, 34, 64, 255, w.wrapping_add(1), w.wrapping_sub(1), 32, 1]),
        2 => net.nodes[n].a = bad_operand(chance, 0, net),
        3 => net.nodes[n].b = bad_operand(chance, 1, net),
        4 => net.nodes[n].c = bad_operand(chance, 2, net),
        _ => {
            let past = if w < 32 { 1u32 << w } else { u32::MAX };
            net.nodes[n].k = match code {
                CONST | REG => chance.of(&[past, u32::MAX, past.wrapping_add(1)]),
                IN => chance.of(&[1, u32::MAX, 0x100, 0x0100_0000]),
                _ => chance.of(&[1, 2, u32::MAX, u32::MAX - 31, 0x100, 0x0100_0000, 32]),
            };
        }
    }
}

/// The entries of a good section: where each begins.
fn entries(section: &[u8]) -> Vec<usize> {
    let (mut at, mut all) = (0, Vec::new());
    while at + 3 <= section.len() {
        all.push(at);
        at += 3 + section[at + 2] as usize;
    }
    all
}

fn bend_entry(chance: &mut Chance, section: &mut Vec<u8>, nodes: usize, rule: u8) {
    while entries(section).len() < 2 {
        section.clear();
        for n in 0..nodes.min(2) as u16 {
            section.extend(n.to_le_bytes());
            section.push(3);
            section.extend(b"abc");
        }
        if nodes < 2 {
            break;
        }
    }
    let all = entries(section);
    let Some(&last) = all.last() else { return };
    let e = chance.below(all.len());
    let at = all[e];
    let node = |at: usize, section: &[u8]| u16::from_le_bytes([section[at], section[at + 1]]);
    let set = |at: usize, n: u16, section: &mut Vec<u8>| section[at..at + 2].copy_from_slice(&n.to_le_bytes());
    let text = section[at + 2] as usize;
    match rule {
        0 => {
            let n = chance.of(&[nodes as u16, 0xFFFF, 0x8000, 1024]);
            set(at, n, section)
        }
        1 if e > 0 => {
            let n = node(all[e - 1], section);
            set(at, n, section)
        }
        2 if e > 0 => {
            let n = chance.below(node(all[e - 1], section) as usize + 1) as u16;
            set(at, n, section)
        }
        3 => section[at + 2] = 0,
        4 => section[at + 2] = chance.of(&[32, 33, 64, 255]),
        5 => section.truncate(last + 3 + chance.below(section[last + 2].max(1) as usize)),
        6 => {
            if chance.one_in(2) {
                section.truncate(last + chance.from_to(1, 2));
            } else {
                let from = section.len();
                section.resize(from + chance.from_to(1, 2), 0);
            }
        }
        7 | 8 => {
            // A section that was bent before may end earlier.
            let spot = at + 3 + chance.below(text.max(1));
            let bad = if rule == 7 { chance.of(&[0x1F, 0x00, 0x0A]) } else { chance.of(&[0x7F, 0x80, 0xFF]) };
            section.get_mut(spot).into_iter().for_each(|b| *b = bad);
        }
        _ => {}
    }
}

/// Wrong bytes anywhere in a sheet.
pub fn scratch(chance: &mut Chance, sheet: &mut Vec<u8>) {
    let length = sheet.len();
    let at = if length > 16 && chance.one_in(3) { length - 1 - chance.below(16) } else { chance.below(length.max(1)) };
    match chance.below(9) {
        0 | 1 if length > 0 => sheet[at] = chance.byte(),
        2 if length > 0 => sheet[at] ^= 1 << chance.below(8),
        3 => sheet.insert(at.min(length), chance.byte()),
        4 if length > 0 => drop(sheet.remove(at)),
        5 => sheet.truncate(length - chance.below(length.min(20) + 1)),
        6 if length > 0 => drop(sheet.drain(..chance.below(length.min(24) + 1))),
        7 if length >= 16 => {
            let i = chance.below(3);
            let d = distance(sheet, i);
            let by = chance.of(&[1, 2, 12, 24, 0xFFFF_FFFF, 0xFFFF_FFFE, 0xFFFF_FFF4, 0x8000_0000, 3]);
            set_distance(sheet, i, d.wrapping_add(by))
        }
        _ if length > 4 => {
            // A stretch moved elsewhere, as a section written in the wrong place is.
            let from = chance.below(length - 1);
            let some = chance.from_to(1, (length - from).min(40));
            let moved: Vec<u8> = sheet.drain(from..from + some).collect();
            let to = chance.below(sheet.len() + 1);
            sheet.splice(to..to, moved);
        }
        _ => {}
    }
}

/// Noise, sometimes with a trailer that keeps its rules.
pub fn noise(chance: &mut Chance, mark: &[u8; 2]) -> Vec<u8> {
    let length = if chance.one_in(4) { chance.below(40) } else { chance.below(400) };
    let mut sheet: Vec<u8> = (0..length).map(|_| if chance.one_in(3) { chance.byte() & 3 } else { chance.byte() }).collect();
    if chance.one_in(2) {
        let (nodes, outputs) = (chance.below(length / 12 + 1), chance.below(3));
        let labels = length.saturating_sub(12 * nodes + 2 * outputs);
        sheet.resize(12 * nodes + 2 * outputs + labels, 0);
        for d in [labels, labels + 2 * outputs, sheet.len()] {
            sheet.extend((d as u32).to_le_bytes());
        }
        sheet.extend([1, 0]);
        sheet.extend(mark);
    }
    sheet
}

/// A drawing of one code alone is seldom made; this one has them all.
pub fn all_codes(chance: &mut Chance) -> Drawing {
    loop {
        let size = chance.from_to(60, 200);
        let net = drawing_of(chance, size);
        if CODES.iter().all(|&code| net.nodes.iter().any(|x| x.code == code)) {
            return net;
        }
    }
}
