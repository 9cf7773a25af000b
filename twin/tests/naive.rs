// The network against a slow one that follows the outline's sentences one by one, on random drawings and commands.

mod common;
use common::*;
use std::collections::{BTreeSet, VecDeque};
use twin::sheets::{ADD, AND, ANY, CAT, CONST, EQ, IN, LTU, MUX, NEG, NOT, OR, PAR, REG, SHL, SHR, SLICE, SUB, XOR};
use twin::{Action, Canonical, Network, Record};

#[derive(Clone, Copy, PartialEq)]
enum Way {
    In(usize),
    Channel(usize, u8),
    Out(usize),
}

fn operands(x: &Record) -> Vec<usize> {
    let count = match x.code {
        IN | CONST => 0,
        REG..=PAR | SLICE => 1,
        MUX => 3,
        _ => 2,
    };
    [x.a, x.b, x.c][..count].iter().map(|&m| m as usize).collect()
}

fn ways(nodes: &[Record], outputs: &[u16], part: &[u8]) -> Vec<Way> {
    let mut all: Vec<Way> = (0..nodes.len()).filter(|&n| nodes[n].code == IN).map(Way::In).collect();
    let mut pairs = BTreeSet::new();
    for (n, x) in nodes.iter().enumerate() {
        pairs.extend(operands(x).into_iter().filter(|&m| part[m] != part[n]).map(|m| (m, part[n])));
    }
    all.extend(pairs.into_iter().map(|(m, p)| Way::Channel(m, p)));
    all.extend(outputs.iter().map(|&n| Way::Out(n as usize)));
    all
}

struct Slow {
    nodes: Vec<Record>,
    part: Vec<u8>,
    ways: Vec<Way>,
    depth: Vec<u8>,
    parts: usize,
    limit: u64,
    tokens: Vec<VecDeque<u32>>,
    flag: Vec<bool>,
    held: Vec<u32>,
    count: Vec<u64>,
}

impl Slow {
    fn puts(&self) -> Vec<usize> {
        (0..self.ways.len()).filter(|&q| !matches!(self.ways[q], Way::In(_))).collect()
    }

    fn incoming(&self, p: usize) -> Vec<usize> {
        let comes = |way: &Way| match *way {
            Way::In(n) => self.part[n] as usize == p,
            Way::Channel(_, to) => to as usize == p,
            Way::Out(_) => false,
        };
        (0..self.ways.len()).filter(|&q| comes(&self.ways[q])).collect()
    }

    fn queue(&self, way: Way) -> usize {
        self.ways.iter().position(|&w| w == way).unwrap()
    }

    fn node(&self, q: usize) -> usize {
        match self.ways[q] {
            Way::In(n) | Way::Channel(n, _) | Way::Out(n) => n,
        }
    }

    /// The incoming queues that a node reaches inside a part.
    fn reach(&self, n: usize, p: u8, seen: &mut BTreeSet<usize>, found: &mut BTreeSet<usize>) {
        if self.part[n] != p {
            found.insert(self.queue(Way::Channel(n, p)));
        } else if self.nodes[n].code == IN {
            found.insert(self.queue(Way::In(n)));
        } else if self.nodes[n].code != REG && seen.insert(n) {
            for m in operands(&self.nodes[n]) {
                self.reach(m, p, seen, found);
            }
        }
    }

    /// A node's present value as a part sees it; none where a token that it needs is not there.
    fn value(&self, n: usize, p: u8, memory: &mut Vec<Option<Option<u32>>>) -> Option<u32> {
        if self.part[n] != p {
            return self.tokens[self.queue(Way::Channel(n, p))].front().copied();
        }
        let x = &self.nodes[n];
        match x.code {
            IN => return self.tokens[self.queue(Way::In(n))].front().copied(),
            CONST => return Some(x.k),
            REG => return Some(self.held[n]),
            _ => {}
        }
        if let Some(known) = memory[n] {
            return known;
        }
        let of: Option<Vec<u64>> = operands(x).into_iter().map(|m| self.value(m, p, memory).map(|v| v as u64)).collect();
        let v = of.map(|o| {
            let two_w = 1u64 << x.w;
            let v = match x.code {
                NOT => two_w - 1 - o[0],
                NEG => two_w - o[0],
                ANY => (o[0] > 0) as u64,
                PAR => (o[0].count_ones() % 2) as u64,
                AND => o[0] & o[1],
                OR => o[0] | o[1],
                XOR => o[0] ^ o[1],
                ADD => o[0] + o[1],
                SUB => two_w + o[0] - o[1],
                EQ => (o[0] == o[1]) as u64,
                LTU => (o[0] < o[1]) as u64,
                SHL => o[0] << (o[1] % 32),
                SHR => o[0] >> (o[1] % 32),
                MUX => o[if o[0] == 1 { 1 } else { 2 }],
                CAT => o[0] * (1 << self.nodes[x.b as usize].w) + o[1],
                SLICE => o[0] >> x.k,
                _ => unreachable!(),
            };
            (v % two_w) as u32
        });
        memory[n] = Some(v);
        v
    }

    fn ready(&self, k: usize) -> u32 {
        let puts = self.puts();
        if k >= puts.len() + self.parts {
            return 12;
        }
        let ready = if k < puts.len() {
            let q = puts[k];
            let (n, p) = (self.node(q), self.part[self.node(q)]);
            let mut needs = BTreeSet::new();
            self.reach(n, p, &mut BTreeSet::new(), &mut needs);
            !self.flag[q]
                && self.tokens[q].len() < self.depth[q] as usize
                && needs.iter().all(|&i| !self.tokens[i].is_empty())
                && self.count[p as usize] < self.limit
        } else {
            let p = k - puts.len();
            puts.iter().all(|&q| self.part[self.node(q)] as usize != p || self.flag[q])
                && self.incoming(p).iter().all(|&q| !self.tokens[q].is_empty())
                && self.count[p] < self.limit
        };
        if ready {
            0
        } else {
            14
        }
    }

    fn fire(&mut self, k: usize) -> u32 {
        let answer = self.ready(k);
        if answer != 0 {
            return answer;
        }
        let puts = self.puts();
        let mut memory = vec![None; self.nodes.len()];
        if k < puts.len() {
            let q = puts[k];
            let n = self.node(q);
            let v = self.value(n, self.part[n], &mut memory).unwrap();
            self.tokens[q].push_back(v);
            self.flag[q] = true;
            return 0;
        }
        let p = (k - puts.len()) as u8;
        let next: Vec<u32> = (0..self.nodes.len())
            .map(|n| match self.nodes[n].code {
                REG if self.part[n] == p => self.value(self.nodes[n].a as usize, p, &mut memory).unwrap(),
                _ => self.held[n],
            })
            .collect();
        self.held = next;
        for q in self.incoming(p as usize) {
            self.tokens[q].pop_front();
        }
        for q in puts {
            if self.part[self.node(q)] == p {
                self.flag[q] = false;
            }
        }
        self.count[p as usize] += 1;
        0
    }

    fn feed(&mut self, i: usize, v: u32) -> u32 {
        let ins: Vec<usize> = (0..self.ways.len()).filter(|&q| matches!(self.ways[q], Way::In(_))).collect();
        let Some(&q) = ins.get(i) else { return 12 };
        if v > most(self.nodes[self.node(q)].w) {
            return 13;
        }
        if self.tokens[q].len() >= self.depth[q] as usize {
            return 14;
        }
        self.tokens[q].push_back(v);
        0
    }

    fn drain(&mut self, j: usize) -> (u32, u32) {
        let outs: Vec<usize> = (0..self.ways.len()).filter(|&q| matches!(self.ways[q], Way::Out(_))).collect();
        match outs.get(j) {
            None => (12, 0),
            Some(&q) => self.tokens[q].pop_front().map_or((14, 0), |v| (0, v)),
        }
    }

    fn rules(&self) -> usize {
        self.puts().len() + self.parts
    }

    fn round(&mut self) -> u32 {
        (0..self.rules()).map(|k| (self.fire(k) == 0) as u32).sum()
    }

    fn canonical(&self) -> Box<Canonical> {
        let mut c = Box::new(Canonical::ZERO);
        for (q, tokens) in self.tokens.iter().enumerate() {
            tokens.iter().enumerate().for_each(|(i, &v)| c.cells[q * 16 + i] = v);
            c.used[q] = tokens.len() as u8;
            c.flag[q] = self.flag[q];
        }
        for n in 0..self.nodes.len() {
            c.held[n] = if self.nodes[n].code == REG { self.held[n] } else { 0 };
        }
        for p in 0..self.parts {
            c.count[p] = self.count[p] as u32;
        }
        c
    }
}

fn any_network(chance: &mut Chance, count: usize, ins: usize, parts: usize) -> (Slow, Vec<u8>, Vec<u8>) {
    let nodes = any_nodes(chance, count, ins);
    let outputs: Vec<u16> = (0..1 + chance.below(6)).map(|_| chance.below(count) as u16).collect();
    loop {
        let part: Vec<u8> = (0..count).map(|_| chance.below(parts) as u8).collect();
        let parts = *part.iter().max().unwrap() as usize + 1;
        let ways = ways(&nodes, &outputs, &part);
        let depth: Vec<u8> = ways.iter().map(|_| chance.of(&[1, 1, 2, 3, 16])).collect();
        let limit = chance.of(&[1, 2, 5, 4_000_000_000]);
        let (net, cut) = (net_sheet(&nodes, &outputs, &[]), cut_sheet(&part, &depth, &[]));
        if Network::open(&net, &cut, limit).is_err() {
            continue;
        }
        let held = nodes.iter().map(|x| x.k).collect();
        let (tokens, flag) = (vec![VecDeque::new(); ways.len()], vec![false; ways.len()]);
        let slow = Slow { nodes, part, ways, depth, parts, limit, tokens, flag, held, count: vec![0; parts] };
        return (slow, net, cut);
    }
}

fn play(chance: &mut Chance, slow: &mut Slow, net: &[u8], cut: &[u8], commands: usize) -> u64 {
    let mut fast = Network::open(net, cut, slow.limit).unwrap();
    assert_eq!((fast.parts(), fast.queues(), fast.rules()), (slow.parts, slow.ways.len(), slow.rules()));
    let (mut state, mut firings) = (Box::new(Canonical::ZERO), 0);
    for _ in 0..commands {
        let index = chance.below(fast.rules() + 1);
        let v = chance.next() >> chance.below(32);
        match chance.below(8) {
            0 | 1 => {
                for i in 0..fast.inputs() {
                    let v = chance.next() & if chance.below(9) > 0 { most(slow.nodes[slow.node(i)].w) } else { u32::MAX };
                    assert_eq!(fast.feed(i, v), slow.feed(i, v));
                }
            }
            2 => assert_eq!(fast.drain(index), slow.drain(index)),
            3 => {
                for j in 0..fast.outputs() {
                    assert_eq!(fast.drain(j), slow.drain(j));
                }
            }
            4 => {
                let answer = fast.fire(index);
                firings += (answer == 0) as u64;
                assert_eq!(answer, slow.fire(index));
            }
            5 => {
                let fired = fast.round();
                firings += fired as u64;
                assert_eq!(fired, slow.round());
            }
            6 => {
                let rounds = chance.below(4) as u64;
                let (mut done, mut fired) = (0, 0);
                while done < rounds as u32 {
                    let f = slow.round();
                    (done, fired) = (done + 1, fired + f);
                    if f == 0 {
                        break;
                    }
                }
                firings += fired as u64;
                assert_eq!(fast.run(rounds), (0, done, fired));
            }
            _ => {
                let actions: Vec<Action> = (0..chance.below(12))
                    .map(|_| Action { kind: chance.below(4) as u32, index: chance.below(fast.rules() + 1) as u32, value: v })
                    .collect();
                let drains = actions.iter().filter(|a| a.kind == 1).count();
                let mut lent = vec![77; drains + 1];
                let (mut want, mut counts) = (vec![], (0, 0, 0, 0));
                for a in &actions {
                    match a.kind {
                        0 => counts.1 += (slow.feed(a.index as usize, v) == 0) as u32,
                        1 => {
                            if let (0, v) = slow.drain(a.index as usize) {
                                want.push(v);
                                counts.2 += 1;
                            }
                        }
                        2 => counts.3 += (slow.fire(a.index as usize) == 0) as u32,
                        _ => {}
                    }
                }
                want.resize(drains + 1, 77);
                firings += counts.3 as u64;
                let list = |of: fn(&Action) -> u32| actions.iter().map(of).collect::<Vec<_>>();
                if chance.below(2) == 0 {
                    assert_eq!(fast.order_of(&actions, &mut lent), counts);
                } else {
                    assert_eq!(fast.order(&list(|a| a.kind), &list(|a| a.index), &list(|a| a.value), &mut lent), counts);
                }
                assert_eq!(lent, want);
            }
        }
        fast.canonical(&mut state);
        assert!(*state == *slow.canonical());
        let k = chance.below(fast.rules() + 1);
        assert_eq!(fast.ready(k), slow.ready(k));
    }
    // Firings are finished cycles times (put rules + 1), summed over parts, plus flags on.
    let mut sum = slow.flag.iter().filter(|&&f| f).count() as u64;
    for p in 0..slow.parts {
        let puts = slow.puts().iter().filter(|&&q| slow.part[slow.node(q)] as usize == p).count() as u64;
        sum += slow.count[p] * (puts + 1);
    }
    assert_eq!(firings, sum);
    firings
}

#[test]
fn small_networks() {
    let mut chance = Chance(0x1234_5678_9ABC_DEF1);
    let mut firings = 0;
    for i in 0..4000 {
        let count = 1 + chance.below(if i % 5 == 0 { 40 } else { 12 });
        let parts = 1 + chance.below(4.min(count));
        let (mut slow, net, cut) = any_network(&mut chance, count, 3, parts);
        firings += play(&mut chance, &mut slow, &net, &cut, 60);
    }
    assert!(firings > 100_000, "{firings} firings");
}

#[test]
fn many_incoming_queues() {
    let mut chance = Chance(0xFEDC_BA98_7654_3211);
    for _ in 0..6 {
        let (mut slow, net, cut) = any_network(&mut chance, 420, 300, 2);
        assert!(slow.ways.len() > 130);
        play(&mut chance, &mut slow, &net, &cut, 30);
    }
}
