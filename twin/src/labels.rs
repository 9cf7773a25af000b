// Label entries: the rule of a section, and the lookup of a node's label (outline, "The net sheet", "The cut sheet").

use crate::queues::{read_cut_into, Cut, Queues};
use crate::sheets::{read_net_into, Net, TRAILER};

/// The first entry of a section that breaks its rule: numbers exist and strictly rise, lengths 1 to 31, bytes 0x20 to 0x7E, and the
/// entries fill the section. An entry that the section's end cuts off is a bad one.
pub fn bad_entry(section: &[u8], nodes: usize) -> Option<usize> {
    let (mut rest, mut entry, mut lowest) = (section, 0, 0);
    while !rest.is_empty() {
        let [n0, n1, len, after @ ..] = rest else { return Some(entry) };
        let (node, len) = (u16::from_le_bytes([*n0, *n1]) as usize, *len as usize);
        if node >= nodes || node < lowest || !(1..=31).contains(&len) || after.len() < len {
            return Some(entry);
        }
        if after[..len].iter().any(|b| !(0x20..=0x7E).contains(b)) {
            return Some(entry);
        }
        rest = &after[len..];
        lowest = node + 1;
        entry += 1;
    }
    None
}

/// Where a good section holds a node's text: start and length.
fn find(section: &[u8], node: usize) -> Option<(usize, usize)> {
    let mut at = 0;
    while at + 3 <= section.len() {
        let len = section[at + 2] as usize;
        if u16::from_le_bytes([section[at], section[at + 1]]) as usize == node {
            return Some((at + 3, len));
        }
        at += 3 + len;
    }
    None
}

#[derive(Clone, Copy, Debug, PartialEq, Eq)]
pub enum Sheet {
    Net,
    Cut,
}

/// The part of a sheet that holds a label's text.
#[derive(Clone, Copy, Debug, PartialEq, Eq)]
pub struct Found {
    pub sheet: Sheet,
    pub start: usize,
    pub len: usize,
}

/// A node's label is the cut sheet's if it has one, else the net sheet's; else the empty part at the net sheet's end.
pub fn label_place(net_sheet: &[u8], cut_sheet: &[u8], node: usize) -> Found {
    let none = Found { sheet: Sheet::Net, start: net_sheet.len(), len: 0 };
    let mut net = Net::ZERO;
    if read_net_into(&mut net, net_sheet).is_err() || node >= net.nodes {
        return none;
    }
    let (mut cut, mut queues) = (Cut::ZERO, Queues::ZERO);
    if read_cut_into(&net, &mut cut, &mut queues, cut_sheet).is_err() {
        return none;
    }
    for (sheet, bytes, labels) in [(Sheet::Cut, cut_sheet, cut.labels), (Sheet::Net, net_sheet, net.labels)] {
        let from = bytes.len() - TRAILER - labels;
        if let Some((at, len)) = find(&bytes[from..from + labels], node) {
            return Found { sheet, start: from + at, len };
        }
    }
    none
}

/// The label itself, a part of one of the sheets.
pub fn label<'a>(net_sheet: &'a [u8], cut_sheet: &'a [u8], node: usize) -> &'a [u8] {
    let found = label_place(net_sheet, cut_sheet, node);
    let sheet = if found.sheet == Sheet::Net { net_sheet } else { cut_sheet };
    &sheet[found.start..found.start + found.len]
}
