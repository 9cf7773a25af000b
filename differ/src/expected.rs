// What the library's structs have to hold, worked out from the twin: netlists, cuts, queues, plans and networks, field by field.

use boards::{NO_OPERAND, NO_QUEUE};
use twin::queues::Kind;
use twin::sheets::IN;
use twin::{Canonical, Cut, Net, Queues, Record};

pub fn netlist_of(net: &Net) -> Box<boards::Netlist> {
    let mut n = boards::Netlist::zeros();
    n.nodes = net.nodes;
    for (i, x) in net.record.iter().enumerate() {
        (n.code[i], n.width[i], n.a[i], n.b[i], n.c[i], n.k[i]) = (x.code, x.w, x.a, x.b, x.c, x.k);
    }
    n.outputs = net.outputs;
    n.output = net.output;
    n.labels = net.labels;
    n.label = net.label;
    n
}

pub fn net_of(n: &boards::Netlist) -> Box<Net> {
    let mut net = Box::new(Net::ZERO);
    net.nodes = n.nodes;
    for (i, x) in net.record.iter_mut().enumerate() {
        *x = Record { code: n.code[i], w: n.width[i], a: n.a[i], b: n.b[i], c: n.c[i], k: n.k[i] };
    }
    net.outputs = n.outputs;
    net.output = n.output;
    net.labels = n.labels;
    net.label = n.label;
    net
}

pub fn library_cut_of(cut: &Cut) -> Box<boards::Cut> {
    let mut c = boards::Cut::zeros();
    (c.nodes, c.queues, c.labels) = (cut.nodes, cut.queues, cut.labels);
    (c.part, c.depth, c.label) = (cut.part, cut.depth, cut.label);
    c
}

pub fn cut_of(c: &boards::Cut) -> Box<Cut> {
    let mut cut = Box::new(Cut::ZERO);
    (cut.nodes, cut.queues, cut.labels) = (c.nodes, c.queues, c.labels);
    (cut.part, cut.depth, cut.label) = (c.part, c.depth, c.label);
    cut
}

/// The queue from which a node reads its operand in a slot.
fn via(net: &Net, cut: &Cut, queues: &Queues, n: usize, slot: usize) -> u16 {
    let (operand, count) = net.record[n].operands();
    let m = operand[slot] as usize;
    if slot < count && cut.part[m] != cut.part[n] {
        queues.channel(m, cut.part[n]) as u16
    } else {
        NO_QUEUE
    }
}

pub fn library_queues_of(net: &Net, cut: &Cut, queues: &Queues) -> Box<boards::Queues> {
    let mut q = boards::Queues::zeros();
    (q.parts, q.count) = (queues.parts, queues.count);
    let count = |kind: Kind| queues.all().iter().filter(|x| x.kind == kind).count();
    (q.inputs, q.channels, q.outputs) = (count(Kind::Input), count(Kind::Channel), count(Kind::Output));
    for (i, x) in queues.all().iter().enumerate() {
        (q.node[i], q.from[i], q.into[i]) = (x.node, x.giver, x.taker);
    }
    for n in 0..net.nodes {
        q.input[n] = if net.record[n].code == IN { queues.input(n) as u16 } else { NO_QUEUE };
        [q.a[n], q.b[n], q.c[n]] = [0, 1, 2].map(|slot| via(net, cut, queues, n, slot));
    }
    q
}

/// Where a node reads its operand in a slot: a node, 1,024 and a queue, or none. An IN reads its own queue.
fn read_at(net: &Net, cut: &Cut, queues: &Queues, n: usize, slot: usize) -> u16 {
    let x = &net.record[n];
    let (operand, count) = x.operands();
    match via(net, cut, queues, n, slot) {
        _ if x.code == IN && slot == 0 => 1024 + queues.input(n) as u16,
        _ if slot >= count => NO_OPERAND,
        NO_QUEUE => operand[slot],
        queue => 1024 + queue,
    }
}

pub fn plan_of(net: &Net, cut: &Cut, queues: &Queues, limit: u32) -> Box<boards::Plan> {
    let mut p = boards::Plan::zeros();
    let q = library_queues_of(net, cut, queues);
    p.limit = limit;
    (p.nodes, p.parts, p.inputs, p.channels, p.outputs) = (net.nodes, q.parts, q.inputs, q.channels, q.outputs);
    (p.queues, p.rules) = (q.count, q.channels + q.outputs + q.parts);
    for n in 0..net.nodes {
        let x = &net.record[n];
        (p.code[n], p.width[n], p.k[n], p.part[n]) = (x.code, x.w, x.k, cut.part[n]);
        p.join[n] = net.record[x.b as usize].w;
        [p.ra[n], p.rb[n], p.rc[n]] = [0, 1, 2].map(|slot| read_at(net, cut, queues, n, slot));
    }
    (p.node, p.from, p.into, p.depth) = (q.node, q.from, q.into, cut.depth);
    p
}

/// The first place where a network is not the twin's.
pub fn network_differs(network: &boards::Network, twin: &Canonical) -> Option<String> {
    let first = |name: &str, at: Option<usize>| at.map(|i| format!("network.{name}[{i}]"));
    if network.used != twin.used {
        return first("used", (0..512).find(|&i| network.used[i] != twin.used[i]));
    }
    if network.flag != twin.flag {
        return first("flag", (0..512).find(|&i| network.flag[i] != twin.flag[i]));
    }
    if network.count != twin.count {
        return first("count", (0..32).find(|&i| network.count[i] != twin.count[i]));
    }
    if network.held != twin.held {
        return first("held", (0..1024).find(|&i| network.held[i] != twin.held[i]));
    }
    if network.cells != twin.cells {
        return first("cells", (0..8192).find(|&i| network.cells[i] != twin.cells[i]));
    }
    None
}
