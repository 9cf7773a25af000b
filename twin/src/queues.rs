// The cut sheet and its queues: reader, writer and the queues' order (outline, "The cut sheet").

use crate::labels::bad_entry;
use crate::sheets::{put_trailer, refused, trailer, Net, Refusal, Written, IN, LABEL_BYTES, NODES, TRAILER};

pub const QUEUES: usize = 512;
pub const PARTS: usize = 32;
pub const DEPTH: usize = 16;
/// The giver of an input's queue, and the taker of an output's.
pub const OUTSIDE: u8 = 32;

#[derive(Clone, Copy, Debug, PartialEq, Eq)]
pub enum Kind {
    Input,
    Channel,
    Output,
}

#[derive(Clone, Copy, Debug, PartialEq, Eq)]
pub struct Queue {
    pub kind: Kind,
    pub node: u16,
    pub giver: u8,
    pub taker: u8,
}

/// A cut. Past its counts everything that a reader gave is zero.
#[derive(Clone, Debug, PartialEq, Eq)]
pub struct Cut {
    pub nodes: usize,
    pub queues: usize,
    pub labels: usize,
    pub part: [u8; NODES],
    pub depth: [u8; QUEUES],
    pub label: [u8; LABEL_BYTES],
}

impl Cut {
    pub const ZERO: Cut =
        Cut { nodes: 0, queues: 0, labels: 0, part: [0; NODES], depth: [0; QUEUES], label: [0; LABEL_BYTES] };
}

/// The queues of a drawing and its parts: inputs, channels, outputs, each in queue order.
#[derive(Clone, Debug, PartialEq, Eq)]
pub struct Queues {
    pub parts: usize,
    pub count: usize,
    pub inputs: usize,
    pub channels: usize,
    pub outputs: usize,
    pub queue: [Queue; QUEUES],
    /// For each node, the other parts that use it as an operand, a bit for each.
    takers: [u32; NODES],
    /// For each node, its first channel; for an IN its own queue too.
    first: [u16; NODES],
    own: [u16; NODES],
}

impl Queues {
    pub const ZERO: Queues = Queues {
        parts: 0,
        count: 0,
        inputs: 0,
        channels: 0,
        outputs: 0,
        queue: [Queue { kind: Kind::Input, node: 0, giver: 0, taker: 0 }; QUEUES],
        takers: [0; NODES],
        first: [0; NODES],
        own: [0; NODES],
    };

    /// The channel of a node to another part that uses it.
    #[inline]
    pub fn channel(&self, node: usize, part: u8) -> usize {
        let before = self.takers[node] & ((1u32 << (part & 31)) - 1);
        self.first[node] as usize + before.count_ones() as usize
    }

    /// The queue of an IN.
    #[inline]
    pub fn input(&self, node: usize) -> usize {
        self.own[node] as usize
    }

    #[inline]
    pub fn all(&self) -> &[Queue] {
        &self.queue[..self.count]
    }
}

/// Counts the queues, and lists them where they are at most 512. The part numbers are at most 31.
fn list(net: &Net, part: &[u8], queues: &mut Queues) -> usize {
    let mut parts = 0;
    for (n, &p) in part[..net.nodes].iter().enumerate() {
        parts = parts.max(p as usize + 1);
        let (operand, count) = net.record[n].operands();
        for &m in &operand[..count] {
            if part[m as usize] != p {
                queues.takers[m as usize] |= 1 << p;
            }
        }
    }
    let inputs = net.record[..net.nodes].iter().filter(|x| x.code == IN).count();
    let channels: usize = queues.takers[..net.nodes].iter().map(|t| t.count_ones() as usize).sum();
    let count = inputs + channels + net.outputs;
    if count > QUEUES {
        return count;
    }
    let (mut q, mut c) = (0, inputs);
    for (n, &giver) in part[..net.nodes].iter().enumerate() {
        if net.record[n].code == IN {
            queues.queue[q] = Queue { kind: Kind::Input, node: n as u16, giver: OUTSIDE, taker: giver };
            queues.own[n] = q as u16;
            q += 1;
        }
        queues.first[n] = c as u16;
        let mut takers = queues.takers[n];
        while takers != 0 {
            queues.queue[c] = Queue { kind: Kind::Channel, node: n as u16, giver, taker: takers.trailing_zeros() as u8 };
            takers &= takers - 1;
            c += 1;
        }
    }
    for (j, &n) in net.output[..net.outputs].iter().enumerate() {
        queues.queue[c + j] = Queue { kind: Kind::Output, node: n, giver: part[n as usize], taker: OUTSIDE };
    }
    queues.parts = parts;
    queues.count = count;
    queues.inputs = inputs;
    queues.channels = channels;
    queues.outputs = net.outputs;
    count
}

/// The checks 7 (label bytes) to 11 of a cut, as reader and writer share them; the queues start as zeros.
fn check(net: &Net, cut: &Cut, queues: &mut Queues) -> Result<(), Refusal> {
    if cut.labels > LABEL_BYTES {
        return refused(7, 0);
    }
    if cut.nodes != net.nodes {
        return refused(8, 0);
    }
    if let Some(n) = cut.part[..cut.nodes].iter().position(|&p| p as usize >= PARTS) {
        return refused(8, n);
    }
    let count = list(net, &cut.part, queues);
    if count > QUEUES || count != cut.queues {
        return refused(9, 0);
    }
    if let Some(q) = cut.depth[..count].iter().position(|&d| !(1..=DEPTH).contains(&(d as usize))) {
        return refused(9, q);
    }
    let joined = queues.all().iter().fold(0u64, |j, q| j | 1 << q.giver | 1 << q.taker);
    if let Some(p) = (0..queues.parts).find(|p| joined >> p & 1 == 0) {
        return refused(10, p);
    }
    if let Some(e) = bad_entry(&cut.label[..cut.labels], net.nodes) {
        return refused(11, e);
    }
    Ok(())
}

/// A netlist that a reader gave has counts within their numbers and operands and outputs that exist. Another one is refused as 3:
/// the outline leaves that answer free.
fn readable(net: &Net) -> bool {
    net.counts_fit()
        && net.record[..net.nodes].iter().all(|x| {
            let (operand, count) = x.operands();
            operand[..count].iter().all(|&m| (m as usize) < net.nodes)
        })
        && net.output[..net.outputs].iter().all(|&n| (n as usize) < net.nodes)
}

/// Reads a cut sheet by 7 to 11, with its queues. A refused reading leaves both all zeros.
pub fn read_cut_into(net: &Net, cut: &mut Cut, queues: &mut Queues, sheet: &[u8]) -> Result<(), Refusal> {
    *queues = Queues::ZERO;
    let read = fill(net, cut, queues, sheet);
    if read.is_err() {
        *cut = Cut::ZERO;
        *queues = Queues::ZERO;
    }
    read
}

fn fill(net: &Net, cut: &mut Cut, queues: &mut Queues, sheet: &[u8]) -> Result<(), Refusal> {
    if !readable(net) {
        return refused(3, 0);
    }
    let Some([labels, depths, parts]) = trailer(sheet, b"SC") else { return refused(7, 0) };
    if labels > LABEL_BYTES {
        return refused(7, 0);
    }
    cut.nodes = parts - depths;
    cut.queues = depths - labels;
    cut.labels = labels;
    if cut.nodes != net.nodes {
        return refused(8, 0);
    }
    cut.part[..cut.nodes].copy_from_slice(&sheet[..cut.nodes]);
    cut.part[cut.nodes..].fill(0);
    let listed = cut.queues.min(QUEUES);
    cut.depth[..listed].copy_from_slice(&sheet[cut.nodes..][..listed]);
    cut.depth[listed..].fill(0);
    cut.label[..labels].copy_from_slice(&sheet[cut.nodes + cut.queues..][..labels]);
    cut.label[labels..].fill(0);
    check(net, cut, queues)
}

/// Reads a cut sheet by 7 to 11, with its queues.
pub fn read_cut(net: &Net, sheet: &[u8]) -> Result<(Box<Cut>, Box<Queues>), Refusal> {
    let (mut cut, mut queues) = (Box::new(Cut::ZERO), Box::new(Queues::ZERO));
    read_cut_into(net, &mut cut, &mut queues, sheet)?;
    Ok((cut, queues))
}

/// Writes a cut to the front of a lent buffer, by 7's label bytes, 8 to 11 and then 16. The rest of the buffer stays, and all of it on
/// refusal.
pub fn write_cut(net: &Net, cut: &Cut, buffer: &mut [u8]) -> Written {
    if !readable(net) {
        return Written { answer: 3, place: 0, len: 0 };
    }
    let mut queues = Queues::ZERO;
    if let Err(Refusal { answer, place }) = check(net, cut, &mut queues) {
        return Written { answer, place, len: 0 };
    }
    let len = cut.nodes + cut.queues + cut.labels + TRAILER;
    if buffer.len() < len {
        return Written { answer: 16, place: 0, len: 0 };
    }
    let (part, rest) = buffer.split_at_mut(cut.nodes);
    let (depth, rest) = rest.split_at_mut(cut.queues);
    let (label, rest) = rest.split_at_mut(cut.labels);
    part.copy_from_slice(&cut.part[..cut.nodes]);
    depth.copy_from_slice(&cut.depth[..cut.queues]);
    label.copy_from_slice(&cut.label[..cut.labels]);
    put_trailer(rest, [cut.labels, cut.queues + cut.labels, cut.nodes + cut.queues + cut.labels], b"SC");
    Written { answer: 0, place: 0, len }
}
