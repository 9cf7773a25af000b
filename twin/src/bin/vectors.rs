// The program `vectors`: reads the cases of net_run, cycle_run, cut_run or network_run and prints what each of them has to print.
#![forbid(unsafe_code)]

use std::io::{stdin, stdout, Read, Write};
use twin::queues::{Kind, DEPTH, PARTS, QUEUES};
use twin::sheets::{Record, IN, NODES};
use twin::{
    label, label_place, read_cut_into, read_net_into, write_cut, write_net, Canonical, Cut, Net, Network, Queues, Refusal, Sheet, Stepper,
    Written,
};

const NET_ROOM: usize = 20_480;
const CUT_ROOM: usize = 8_192;
/// What a lent buffer or list holds before.
const BYTE: u8 = 0xA5;
const LENT: u32 = 7777;
const FEW: usize = 32;
/// How cut_run prints that an operand or a node has no queue.
const NO_QUEUE: u32 = 512;

macro_rules! put {
    ($out:expr, $($rest:tt)*) => { write!($out, $($rest)*).expect("a growing buffer") };
}

fn hex(word: &[u8], bytes: &mut Vec<u8>) {
    bytes.clear();
    if word == b"-" {
        return;
    }
    let digit = |d: u8| (d as char).to_digit(16).expect("a hexadecimal digit") as u8;
    bytes.extend(word.chunks_exact(2).map(|d| digit(d[0]) << 4 | digit(d[1])));
}

fn number(word: &[u8]) -> u64 {
    word.iter().fold(0, |n, d| 10 * n + (d - b'0') as u64)
}

fn put_hex(out: &mut Vec<u8>, bytes: &[u8]) {
    out.push(b'x');
    for b in bytes {
        out.extend([b >> 4, b & 15].map(|d| b"0123456789abcdef"[d as usize]));
    }
}

fn digest(cells: impl Iterator<Item = u32>) -> u32 {
    cells.fold(0u32, |sum, x| sum.wrapping_mul(33).wrapping_add(x))
}

fn verdict(read: Result<(), Refusal>) -> (u32, usize) {
    read.map_or_else(|r| (r.answer, r.place), |_| (0, 0))
}

/// A writer into a buffer with much room, with room for the image, and with a byte less.
fn written(out: &mut Vec<u8>, room: usize, sheet: &[u8], write: impl Fn(&mut [u8]) -> Written) {
    let mut buffer = vec![BYTE; room];
    let len = write(&mut buffer).len;
    for (word, room) in [("write", Some(room)), ("fit", Some(len)), ("short", len.checked_sub(1))] {
        let Some(room) = room else { continue };
        buffer.fill(BYTE);
        let w = write(&mut buffer[..room]);
        put!(out, " {word} {} {} {} ", w.answer, w.place, w.len);
        if buffer[..w.len] == *sheet {
            out.extend(b"same");
        } else {
            put_hex(out, &buffer[..w.len]);
        }
        out.extend(if buffer[w.len..].iter().all(|&b| b == BYTE) { &b" kept"[..] } else { b" lost" });
    }
}

fn change_net(n: &mut Net, letter: u8) {
    match letter {
        b'-' => {}
        b'1' => n.record[n.nodes..].fill(Record { code: 0x77, w: 8, a: 0x5555, b: 0x4444, c: 0x3333, k: 0x22222222 }),
        b'2' => n.output[n.outputs..].fill(0x9999),
        b'3' => n.label[n.labels..].fill(b'a'),
        b'z' => n.nodes = 0,
        b'm' => n.nodes = 1024,
        b'n' => n.nodes = 1025,
        b'N' => n.nodes = usize::MAX,
        b'p' => n.outputs = 65,
        b'P' => n.outputs = usize::MAX,
        b'l' => n.labels = 4097,
        b'L' => n.labels = usize::MAX,
        b'c' => n.record[1].code = 3,
        b'w' => n.record[3].w = 7,
        b'k' => n.record[1].k = 255,
        b'r' => n.record[1].a = 4,
        b'o' => n.output[1] = 4,
        b'O' => n.output[0] = 0xFFFF,
        b'b' => n.label[2] = 4,
        b't' => n.label[3] = 0x7F,
        _ => panic!("no such change"),
    }
}

fn change_cut(c: &mut Cut, letter: u8) {
    match letter {
        b'-' => {}
        b'1' => c.part[c.nodes..].fill(0x77),
        b'2' => c.depth[c.queues..].fill(0x99),
        b'3' => c.label[c.labels..].fill(b'a'),
        b'z' => c.nodes = 0,
        b'm' => c.nodes = 3,
        b'n' => c.nodes = 5,
        b'w' => c.nodes = 1024,
        b'W' => c.nodes = 1025,
        b'N' => c.nodes = usize::MAX,
        b'y' => c.queues = 0,
        b'd' => c.queues = 4,
        b'q' => c.queues = 6,
        b'e' => c.queues = 512,
        b'E' => c.queues = 513,
        b'Q' => c.queues = usize::MAX,
        b'h' => c.labels = 0,
        b'k' => c.labels = 4096,
        b'l' => c.labels = 4097,
        b'L' => c.labels = usize::MAX,
        b'p' => c.part[1] = 32,
        b'P' => c.part[3] = 255,
        b'r' => c.part[3] = 31,
        b's' => c.part[1] = 2,
        b'S' => c.part[3] = 2,
        b'g' => c.depth[0] = 0,
        b'G' => c.depth[4] = 17,
        b'f' => c.depth[2] = 16,
        b'F' => c.depth[3] = 255,
        b'b' => c.label[2] = 32,
        b't' => c.label[3] = 0x7F,
        b'o' => c.label[0] = 4,
        b'u' => c.label[6] = 1,
        b'v' => c.label[3] = b'~',
        _ => panic!("no such change"),
    }
}

fn nets(text: &[u8], out: &mut Vec<u8>) {
    let (mut net, mut sheet) = (Box::new(Net::ZERO), Vec::new());
    for line in lines(text) {
        let mut word = line.split(|&b| b == b' ');
        let (name, changes) = (word.next().unwrap(), word.next().unwrap());
        hex(word.next().unwrap_or(b""), &mut sheet);
        let (answer, place) = verdict(read_net_into(&mut net, &sheet));
        out.extend(name);
        put!(out, ": read {answer} {place} {} {} {} ", net.nodes, net.outputs, net.labels);
        let records = net.record.iter().flat_map(|x| [x.code as u32, x.w as u32, x.a as u32, x.b as u32, x.c as u32, x.k]);
        let cells = records.chain(net.output.iter().map(|&x| x as u32)).chain(net.label.iter().map(|&x| x as u32));
        put_digest(out, cells);
        if answer == 0 {
            changes.iter().for_each(|&letter| change_net(&mut net, letter));
            written(out, NET_ROOM, &sheet, |buffer| write_net(&net, buffer));
        }
        out.push(b'\n');
    }
}

fn put_digest(out: &mut Vec<u8>, cells: impl Iterator<Item = u32> + Clone) {
    if cells.clone().all(|x| x == 0) {
        out.extend(b"zeros");
    } else {
        put!(out, "{}", digest(cells));
    }
}

fn cycles(text: &[u8], out: &mut Vec<u8>) {
    let (mut net, mut sheet) = (Box::new(Net::ZERO), Vec::new());
    let mut stepper = Stepper::new(&net);
    for line in lines(text) {
        let mut word = line.split(|&b| b == b' ');
        out.extend(word.next().unwrap());
        let (cycles, room) = (number(word.next().unwrap()), number(word.next().unwrap()) as usize);
        hex(word.next().unwrap_or(b""), &mut sheet);
        let given: Vec<u32> = word.map(|w| number(w) as u32).collect();
        if let Err(r) = read_net_into(&mut net, &sheet) {
            put!(out, ": read {} {}\n", r.answer, r.place);
            continue;
        }
        stepper.take(&net);
        let first = stepper.held();
        let mut lent = vec![LENT; room + 8];
        let answer = stepper.steps(cycles, &given, &mut lent[..room]);
        put!(out, ": {answer}");
        let kept = |lent: &[u32]| if lent.iter().all(|&v| v == LENT) { " kept" } else { " lost" };
        if answer != 0 {
            put!(out, "{}{}\n", kept(&lent), if stepper.held() == first { " kept" } else { " lost" });
            continue;
        }
        let filled = cycles as usize * stepper.outputs();
        out.extend(b" outputs");
        for v in &lent[..filled] {
            put!(out, " {v}");
        }
        out.extend(b" registers");
        for v in stepper.registers() {
            put!(out, " {v}");
        }
        // Single steps from the first registers on give the same.
        let last = stepper.held();
        stepper.hold(&first);
        let (i, o) = (stepper.inputs(), stepper.outputs());
        let mut alone = vec![LENT; o];
        let same = (0..cycles as usize).all(|t| {
            let answer = stepper.step(&given[t * i..(t + 1) * i], &mut alone);
            answer == 0 && alone == lent[t * o..(t + 1) * o]
        });
        put!(out, "{}{}\n", kept(&lent[filled..]), if same && stepper.held() == last { " same" } else { " other" });
    }
}

fn cuts(text: &[u8], out: &mut Vec<u8>) {
    let (mut net, mut cut, mut queues) = (Box::new(Net::ZERO), Box::new(Cut::ZERO), Box::new(Queues::ZERO));
    let (mut net_sheet, mut cut_sheet) = (Vec::new(), Vec::new());
    for line in lines(text) {
        let mut word = line.split(|&b| b == b' ');
        let (name, changes, first) = (word.next().unwrap(), word.next().unwrap(), word.next().unwrap());
        if first != b"=" {
            hex(first, &mut net_sheet);
        }
        hex(word.next().unwrap(), &mut cut_sheet);
        let (net_answer, net_place) = verdict(read_net_into(&mut net, &net_sheet));
        let (answer, place) = verdict(read_cut_into(&net, &mut cut, &mut queues, &cut_sheet));
        out.extend(name);
        put!(out, ": net {net_answer} {net_place} cut {answer} {place} {} {} {} ", cut.nodes, cut.queues, cut.labels);
        put!(out, "{} {} {} {} {} ", queues.parts, queues.count, queues.inputs, queues.channels, queues.outputs);
        let read_by = tables(&net, &cut, &queues);
        let part = cut.part.iter().chain(&cut.depth).chain(&cut.label).map(|&x| x as u32);
        let node = queues.queue.iter().map(|q| q.node as u32);
        let giver = queues.queue.iter().map(|q| q.giver as u32);
        let taker = queues.queue.iter().map(|q| q.taker as u32);
        put_digest(out, part.chain(node).chain(giver).chain(taker).chain(read_by.iter().flatten().copied()));
        let clean = cut.part[cut.nodes..].iter().chain(&cut.depth[cut.queues..]).chain(&cut.label[cut.labels..]).all(|&x| x == 0);
        out.extend(if clean { &b" clean"[..] } else { b" unclean" });
        if answer == 0 {
            if net.nodes <= FEW && queues.count <= FEW {
                show(out, &net, &cut, &queues, &read_by);
            }
            changes.iter().for_each(|&letter| change_cut(&mut cut, letter));
            written(out, CUT_ROOM, &cut_sheet, |buffer| write_cut(&net, &cut, buffer));
        }
        for node in word {
            let node = number(node) as usize;
            let text = label(&net_sheet, &cut_sheet, node);
            put!(out, " label {node} ");
            put_hex(out, text);
            // Printed is where such bytes stand first; the part that was found must hold them.
            let at = |sheet: &[u8]| sheet.windows(text.len()).position(|w| w == text);
            let found = label_place(&net_sheet, &cut_sheet, node);
            if text.is_empty() {
                let end = found.sheet == Sheet::Net && found.start == net_sheet.len();
                out.extend(if end { &b" empty"[..] } else { b" astray" });
            } else if let Some(i) = at(&cut_sheet) {
                put!(out, " cut {i}");
            } else if let Some(i) = at(&net_sheet) {
                put!(out, " net {i}");
            }
        }
        out.push(b'\n');
    }
}

/// By node: an IN's own queue, and the channels of the operands a, b and c. Zeros past the nodes.
fn tables(net: &Net, cut: &Cut, queues: &Queues) -> [[u32; NODES]; 4] {
    let mut read_by = [[0; NODES]; 4];
    if queues.count == 0 {
        return read_by;
    }
    for n in 0..net.nodes {
        let x = &net.record[n];
        read_by[0][n] = if x.code == IN { queues.input(n) as u32 } else { NO_QUEUE };
        let (operand, count) = x.operands();
        for j in 0..3 {
            let m = operand[j] as usize;
            let away = j < count && cut.part[m] != cut.part[n];
            read_by[1 + j][n] = if away { queues.channel(m, cut.part[n]) as u32 } else { NO_QUEUE };
        }
    }
    read_by
}

fn show(out: &mut Vec<u8>, net: &Net, cut: &Cut, queues: &Queues, read_by: &[[u32; NODES]; 4]) {
    out.extend(b" parts");
    for p in &cut.part[..net.nodes] {
        put!(out, " {p}");
    }
    out.extend(b" depths");
    for d in &cut.depth[..queues.count] {
        put!(out, " {d}");
    }
    out.extend(b" queues");
    for q in queues.all() {
        let kind = match q.kind {
            Kind::Input => "in",
            Kind::Channel => "ch",
            Kind::Output => "out",
        };
        put!(out, " {kind} {} {} {}", q.node, q.giver, q.taker);
    }
    for (name, table) in ["input", "a", "b", "c"].iter().zip(read_by) {
        put!(out, " {name}");
        for (n, q) in table[..net.nodes].iter().enumerate().filter(|(_, &q)| q != NO_QUEUE) {
            put!(out, " {n} {q}");
        }
    }
}

const CELLS: usize = QUEUES * DEPTH + QUEUES + QUEUES + NODES + PARTS;

/// The powers of 33 by which a state's cells count in its digest.
fn powers() -> Vec<u32> {
    let mut powers = vec![1u32; CELLS];
    for i in (0..CELLS - 1).rev() {
        powers[i] = powers[i + 1].wrapping_mul(33);
    }
    powers
}

/// The digest of the plain arrays, summed over the cells that may not be zero.
fn digest_of_state(network: &Network, powers: &[u32]) -> u32 {
    let (cells, rest) = powers.split_at(QUEUES * DEPTH);
    let (used, rest) = rest.split_at(QUEUES);
    let (flag, rest) = rest.split_at(QUEUES);
    let (held, count) = rest.split_at(NODES);
    let mut sum = 0u32;
    let mut add = |x: u32, power: u32| sum = sum.wrapping_add(x.wrapping_mul(power));
    for q in 0..network.queues() {
        let tokens = network.tokens(q).1;
        if tokens > 0 {
            add(tokens, used[q]);
            network.waiting(q).zip(&cells[q * DEPTH..]).for_each(|(v, &power)| add(v, power));
        }
        add(network.flag(q) as u32, flag[q]);
    }
    network.registers().for_each(|(n, v)| add(v, held[n]));
    (0..network.parts()).for_each(|p| add(network.cycles(p).1, count[p]));
    sum
}

/// The same over all cells of the plain arrays.
fn digest_of_arrays(network: &Network, state: &mut Canonical) -> u32 {
    network.canonical(state);
    let cells = state.cells.iter().copied().chain(state.used.iter().map(|&x| x as u32));
    digest(cells.chain(state.flag.iter().map(|&x| x as u32)).chain(state.held.iter().copied()).chain(state.count.iter().copied()))
}

fn networks(text: &[u8], out: &mut Vec<u8>) {
    let (mut net_sheet, mut cut_sheet) = (Vec::new(), Vec::new());
    let (powers, mut state) = (powers(), Box::new(Canonical::ZERO));
    let mut place: Option<Box<Network>> = None;
    let (mut lists, mut lent): ([Vec<u32>; 3], Vec<u32>) = Default::default();
    for line in lines(text) {
        let mut word = line.split(|&b| b == b' ');
        out.extend(word.next().unwrap());
        let limit = number(word.next().unwrap());
        hex(word.next().unwrap(), &mut net_sheet);
        hex(word.next().unwrap(), &mut cut_sheet);
        // The first network's place serves the later ones.
        let opened = match &mut place {
            Some(network) => network.reopen(&net_sheet, &cut_sheet, limit),
            None => Network::open(&net_sheet, &cut_sheet, limit).map(|network| place = Some(network)),
        };
        if let Err(r) = opened {
            put!(out, ": open {} {}\n", r.answer, r.place);
            continue;
        }
        let network = place.as_mut().expect("an open network");
        let (nodes, parts, queues, rules) = (network.nodes(), network.parts(), network.queues(), network.rules());
        put!(out, ": open 0 {nodes} {parts} {queues} {rules} s {}", digest_of_arrays(network, &mut state));
        lists.iter_mut().for_each(Vec::clear);
        while let Some(letter) = word.next() {
            let (x, y) = (number(word.next().unwrap()), number(word.next().unwrap()) as u32);
            let i = x as usize;
            match letter {
                b"l" => {
                    lists[i].push(y);
                    continue;
                }
                b"f" => put!(out, " f {}", network.feed(i, y)),
                b"d" => {
                    let (answer, v) = network.drain(i);
                    put!(out, " d {answer} {v}");
                }
                b"r" => put!(out, " r {}", network.fire(i)),
                b"y" => put!(out, " y {}", network.ready(i)),
                b"a" => put!(out, " a 0 {}", network.round()),
                b"n" => {
                    let (answer, rounds, firings) = network.run(x);
                    put!(out, " n {answer} {rounds} {firings}");
                }
                b"t" => {
                    let (answer, tokens) = network.tokens(i);
                    put!(out, " t {answer} {tokens}");
                }
                b"c" => {
                    let (answer, count) = network.cycles(i);
                    put!(out, " c {answer} {count}");
                }
                b"o" => {
                    lent.clear();
                    lent.resize(i, LENT);
                    let (answer, feeds, drains, firings) = network.order(&lists[0], &lists[1], &lists[2], &mut lent);
                    put!(out, " o {answer} {feeds} {drains} {firings} {}", digest(lent.iter().copied()));
                    lists.iter_mut().for_each(Vec::clear);
                }
                _ => panic!("no such command"),
            }
            put!(out, " {}", digest_of_state(network, &powers));
        }
        // At the end of a case both digests are one.
        if digest_of_arrays(network, &mut state) != digest_of_state(network, &powers) {
            out.extend(b" astray");
        }
        out.push(b'\n');
    }
}

fn lines(text: &[u8]) -> impl Iterator<Item = &[u8]> {
    text.split(|&b| b == b'\n').filter(|line| !line.is_empty())
}

fn main() {
    let what = std::env::args().nth(1).unwrap_or_default();
    let play = match what.as_str() {
        "net" => nets,
        "cycle" => cycles,
        "cut" => cuts,
        "network" => networks,
        _ => {
            eprintln!("vectors net | cycle | cut | network");
            std::process::exit(2);
        }
    };
    let (mut text, mut out) = (Vec::new(), Vec::new());
    stdin().lock().read_to_end(&mut text).expect("standard input");
    play(&text, &mut out);
    stdout().lock().write_all(&out).expect("standard output");
}
