// The network: feeds, drains, rules, rounds, runs and orders (outline, "Rules of the network").
//
// A part's nodes lie together in node order, and each is evaluated at most once for a cycle of its part and the tokens that are there:
// `fresh` says up to which step a part's values are good. Channels are numbered by node, and operands have smaller numbers, so in a round
// a channel's token is there before the first rule that could need it, and no step is taken twice.

use crate::queues::{read_cut_into, Cut, Queues, DEPTH, PARTS, QUEUES};
use crate::sheets::{mask, read_net_into, Net, Refusal, CONST, IN, NODES, REG};
use crate::values::{run, step_of, Step, FRONT, SLOTS};

pub const CELLS: usize = QUEUES * DEPTH;
pub const LONGEST_LIMIT: u64 = 4_000_000_000;
pub const MOST_ROUNDS: u64 = 65_535;

const WORDS: usize = QUEUES / 64;
const NEVER: u16 = u16::MAX;

/// A queue as its put rule or its feed sees it, and as its taker does.
#[derive(Clone, Copy)]
struct Link {
    /// The needed queues among the writer's first 64 incoming ones.
    need: u64,
    /// The slot of the value that is put, and the step behind the last that it takes to know it.
    slot: u16,
    upto: u16,
    /// The queue's number among its taker's incoming ones, and the first of the taker's steps that reads it.
    bit: u16,
    first: u16,
    writer: u8,
    taker: u8,
    depth: u8,
}

/// What opening works out, and nothing changes afterwards.
struct Plan {
    limit: u32,
    nodes: usize,
    parts: usize,
    queues: usize,
    inputs: usize,
    channels: usize,
    link: [Link; QUEUES],
    /// The needed queues among the others, for parts with more than 64.
    more: [[u64; WORDS - 1]; QUEUES],
    words: [u8; PARTS],
    /// The largest value of each input.
    most: [u32; QUEUES],
    /// Steps, incoming queues, put rules' queues and registers, part after part; and where each part's begin.
    step: [Step; NODES],
    step_at: [u16; PARTS + 1],
    incoming: [u16; QUEUES],
    incoming_at: [u16; PARTS + 1],
    put: [u16; QUEUES],
    put_at: [u16; PARTS + 1],
    register: [(u16, u16); NODES],
    register_at: [u16; PARTS + 1],
    /// The step behind the last that a part's registers take to change.
    register_upto: [u16; PARTS],
}

struct State {
    /// Each queue's 16 places are a ring that begins at `head`.
    cells: [u32; CELLS],
    head: [u8; QUEUES],
    used: [u8; QUEUES],
    flag: [bool; QUEUES],
    value: [u32; SLOTS],
    next: [u32; NODES],
    count: [u32; PARTS],
    /// Which of a part's incoming queues have a token; how many have none; how many flags are off.
    present: [[u64; WORDS]; PARTS],
    missing: [u16; PARTS],
    off: [u16; PARTS],
    fresh: [u16; PARTS],
}

pub struct Network {
    plan: Plan,
    state: State,
}

/// An action of an order: kinds 0, 1, 2 are feed, drain and fire.
#[derive(Clone, Copy, Debug, PartialEq, Eq)]
pub struct Action {
    pub kind: u32,
    pub index: u32,
    pub value: u32,
}

/// The state as plain arrays: each queue's tokens from q * 16, oldest first and zeros behind; registers by node.
#[derive(Clone, Debug, PartialEq, Eq)]
pub struct Canonical {
    pub cells: [u32; CELLS],
    pub used: [u8; QUEUES],
    pub flag: [bool; QUEUES],
    pub held: [u32; NODES],
    pub count: [u32; PARTS],
}

impl Canonical {
    pub const ZERO: Canonical =
        Canonical { cells: [0; CELLS], used: [0; QUEUES], flag: [false; QUEUES], held: [0; NODES], count: [0; PARTS] };
}

#[inline(always)]
fn q_of(q: u16) -> usize {
    q as usize & (QUEUES - 1)
}

#[inline(always)]
fn p_of(p: u8) -> usize {
    p as usize & (PARTS - 1)
}

#[inline(always)]
fn slot_of(s: u16) -> usize {
    s as usize & (SLOTS - 1)
}

#[inline(always)]
fn range<'a, T>(all: &'a [T], at: &[u16; PARTS + 1], p: usize) -> &'a [T] {
    &all[at[p] as usize..at[p + 1] as usize]
}

/// Turns counts at p + 1 into starts.
fn starts(at: &mut [u16; PARTS + 1]) {
    for p in 0..PARTS {
        at[p + 1] += at[p];
    }
}

impl Plan {
    const ZERO: Plan = Plan {
        limit: 0,
        nodes: 0,
        parts: 0,
        queues: 0,
        inputs: 0,
        channels: 0,
        link: [Link { need: 0, slot: 0, upto: 0, bit: 0, first: NEVER, writer: 0, taker: 0, depth: 0 }; QUEUES],
        more: [[0; WORDS - 1]; QUEUES],
        words: [0; PARTS],
        most: [0; QUEUES],
        step: [Step::ZERO; NODES],
        step_at: [0; PARTS + 1],
        incoming: [0; QUEUES],
        incoming_at: [0; PARTS + 1],
        put: [0; QUEUES],
        put_at: [0; PARTS + 1],
        register: [(0, 0); NODES],
        register_at: [0; PARTS + 1],
        register_upto: [0; PARTS],
    };

    fn make(&mut self, net: &Net, cut: &Cut, queues: &Queues, limit: u32) {
        self.limit = limit;
        self.nodes = net.nodes;
        self.parts = queues.parts;
        self.queues = queues.count;
        self.inputs = queues.inputs;
        self.channels = queues.channels;
        for at in [&mut self.register_at, &mut self.step_at, &mut self.incoming_at, &mut self.put_at] {
            *at = [0; PARTS + 1];
        }
        let nodes = &net.record[..net.nodes];

        // How many of each kind a part has, and so where they begin.
        for (n, x) in nodes.iter().enumerate() {
            let p = p_of(cut.part[n]);
            match x.code {
                IN | CONST => {}
                REG => self.register_at[p + 1] += 1,
                _ => self.step_at[p + 1] += 1,
            }
        }
        for (q, x) in queues.all().iter().enumerate() {
            if (x.taker as usize) < PARTS {
                self.incoming_at[x.taker as usize + 1] += 1;
            }
            if q >= self.inputs {
                self.put_at[p_of(x.giver) + 1] += 1;
            }
        }
        for p in 0..PARTS {
            self.words[p] = (self.incoming_at[p + 1] as usize).div_ceil(64) as u8;
        }
        starts(&mut self.register_at);
        starts(&mut self.step_at);
        starts(&mut self.incoming_at);
        starts(&mut self.put_at);

        let (mut incoming, mut put) = (self.incoming_at, self.put_at);
        for (q, x) in queues.all().iter().enumerate() {
            let link = &mut self.link[q];
            *link = Link { need: 0, slot: 0, upto: 0, bit: 0, first: NEVER, writer: x.giver, taker: x.taker, depth: cut.depth[q] };
            let taker = x.taker as usize;
            if taker < PARTS {
                link.bit = incoming[taker] - self.incoming_at[taker];
                self.incoming[incoming[taker] as usize] = q as u16;
                incoming[taker] += 1;
            }
            if q >= self.inputs {
                let giver = p_of(x.giver);
                self.put[put[giver] as usize] = q as u16;
                put[giver] += 1;
            } else {
                self.most[q] = mask(nodes[x.node as usize].w);
            }
        }

        // Steps, registers and needs, by node. A needed set stops at a REG, and at another part's node, whose channel is needed.
        let mut need = [[0u64; WORDS]; NODES];
        let mut upto = [0u16; NODES];
        let (mut step_at, mut register_at) = (self.step_at, self.register_at);
        for (n, x) in nodes.iter().enumerate() {
            let part = cut.part[n];
            let p = p_of(part);
            let (operand, count) = x.operands();
            let mut slot = [0u16; 3];
            for (s, &m) in slot.iter_mut().zip(&operand[..count]) {
                *s = self.seen(net, cut, queues, m as usize, part);
            }
            match x.code {
                IN => {
                    let bit = self.link[queues.input(n)].bit as usize;
                    need[n][bit / 64] |= 1 << (bit % 64);
                }
                CONST => {}
                REG => {
                    self.register[register_at[p] as usize] = (n as u16, slot[0]);
                    register_at[p] += 1;
                }
                _ => {
                    let at = step_at[p];
                    step_at[p] += 1;
                    upto[n] = at + 1;
                    let mut needs = [0u64; WORDS];
                    for (&s, &m) in slot.iter().zip(&operand[..count]) {
                        if s as usize >= FRONT {
                            let link = &mut self.link[s as usize - FRONT];
                            link.first = link.first.min(at);
                            needs[link.bit as usize / 64] |= 1 << (link.bit % 64);
                        } else {
                            for (all, one) in needs.iter_mut().zip(&need[m as usize]).take(self.words[p] as usize) {
                                *all |= one;
                            }
                        }
                    }
                    need[n] = needs;
                    let width_of_b = nodes[operand[1] as usize].w;
                    if let Some(step) = step_of(x, slot, n as u16, width_of_b) {
                        self.step[at as usize] = step;
                    }
                }
            }
        }
        for p in 0..self.parts {
            let mut last = self.step_at[p];
            for &(_, from) in range(&self.register, &self.register_at, p) {
                if (from as usize) < FRONT {
                    last = last.max(upto[from as usize]);
                }
            }
            self.register_upto[p] = last;
        }
        for q in self.inputs..self.queues {
            let n = queues.queue[q].node as usize;
            let slot = self.seen(net, cut, queues, n, cut.part[n]);
            let link = &mut self.link[q];
            link.slot = slot;
            link.upto = upto[n];
            link.need = need[n][0];
            self.more[q].copy_from_slice(&need[n][1..]);
        }
    }

    /// The slot in which a part sees a node: its own nodes by number, INs and other parts' nodes by their queue's oldest token.
    fn seen(&self, net: &Net, cut: &Cut, queues: &Queues, node: usize, part: u8) -> u16 {
        if cut.part[node] != part {
            (FRONT + queues.channel(node, part)) as u16
        } else if net.record[node].code == IN {
            (FRONT + queues.input(node)) as u16
        } else {
            node as u16
        }
    }
}

impl State {
    const ZERO: State = State {
        cells: [0; CELLS],
        head: [0; QUEUES],
        used: [0; QUEUES],
        flag: [false; QUEUES],
        value: [0; SLOTS],
        next: [0; NODES],
        count: [0; PARTS],
        present: [[0; WORDS]; PARTS],
        missing: [0; PARTS],
        off: [0; PARTS],
        fresh: [0; PARTS],
    };

    /// A fresh network: flags off, counts 0, registers at first values, queues empty.
    fn begin(&mut self, plan: &Plan, net: &Net) {
        *self = State::ZERO;
        for (n, x) in net.record[..net.nodes].iter().enumerate() {
            if x.code == CONST || x.code == REG {
                self.value[n] = x.k;
            }
        }
        for p in 0..PARTS {
            self.missing[p] = plan.incoming_at[p + 1] - plan.incoming_at[p];
            self.off[p] = plan.put_at[p + 1] - plan.put_at[p];
            self.fresh[p] = plan.step_at[p];
        }
    }

    /// Makes a part's values good up to a step.
    #[inline(always)]
    fn evaluate(&mut self, plan: &Plan, p: usize, upto: u16) {
        let from = self.fresh[p];
        if from < upto {
            run(&plan.step[from as usize..upto as usize], &mut self.value);
            self.fresh[p] = upto;
        }
    }

    /// Puts a token on a queue with room.
    #[inline(always)]
    fn push(&mut self, link: &Link, q: usize, v: u32) {
        let used = self.used[q];
        let at = (self.head[q] + used) as usize & (DEPTH - 1);
        self.cells[(q * DEPTH + at) & (CELLS - 1)] = v;
        self.used[q] = used + 1;
        if used == 0 && (link.taker as usize) < PARTS {
            let p = p_of(link.taker);
            self.value[FRONT + q] = v;
            self.present[p][(link.bit as usize / 64) & (WORDS - 1)] |= 1 << (link.bit % 64);
            self.missing[p] -= 1;
            self.fresh[p] = self.fresh[p].min(link.first);
        }
    }

    #[inline(always)]
    fn put_ready(&self, plan: &Plan, link: &Link, q: usize) -> bool {
        let p = p_of(link.writer);
        if self.flag[q] | (self.used[q] >= link.depth) | (self.count[p] >= plan.limit) | (link.need & !self.present[p][0] != 0) {
            return false;
        }
        plan.words[p] < 2 || plan.more[q].iter().zip(&self.present[p][1..]).all(|(need, present)| need & !present == 0)
    }

    #[inline(always)]
    fn try_put(&mut self, plan: &Plan, q: usize) -> bool {
        let q = q & (QUEUES - 1);
        let link = &plan.link[q];
        if !self.put_ready(plan, link, q) {
            return false;
        }
        let p = p_of(link.writer);
        self.evaluate(plan, p, link.upto);
        self.push(link, q, self.value[slot_of(link.slot)]);
        self.flag[q] = true;
        self.off[p] -= 1;
        true
    }

    #[inline(always)]
    fn finish_ready(&self, plan: &Plan, p: usize) -> bool {
        self.off[p] == 0 && self.missing[p] == 0 && self.count[p] < plan.limit
    }

    #[inline(always)]
    fn try_finish(&mut self, plan: &Plan, p: usize) -> bool {
        let p = p & (PARTS - 1);
        if !self.finish_ready(plan, p) {
            return false;
        }
        // Every new register value, from the old registers and the oldest tokens, before any of them changes.
        self.evaluate(plan, p, plan.register_upto[p]);
        let register = range(&plan.register, &plan.register_at, p);
        for (&(_, from), next) in register.iter().zip(self.next.iter_mut()) {
            *next = self.value[slot_of(from)];
        }
        let mut missing = 0;
        for &q in range(&plan.incoming, &plan.incoming_at, p) {
            let q = q_of(q);
            let head = (self.head[q] + 1) & (DEPTH as u8 - 1);
            self.head[q] = head;
            self.used[q] -= 1;
            if self.used[q] == 0 {
                let bit = plan.link[q].bit as usize;
                self.present[p][(bit / 64) & (WORDS - 1)] &= !(1 << (bit % 64));
                missing += 1;
            } else {
                self.value[FRONT + q] = self.cells[(q * DEPTH + head as usize) & (CELLS - 1)];
            }
        }
        self.missing[p] = missing;
        for (&(n, _), next) in register.iter().zip(self.next.iter()) {
            self.value[slot_of(n)] = *next;
        }
        let put = range(&plan.put, &plan.put_at, p);
        for &q in put {
            self.flag[q_of(q)] = false;
        }
        self.off[p] = put.len() as u16;
        self.count[p] += 1;
        self.fresh[p] = plan.step_at[p];
        true
    }

    fn round(&mut self, plan: &Plan) -> u32 {
        let mut fired = 0;
        for q in plan.inputs..plan.queues {
            fired += self.try_put(plan, q) as u32;
        }
        for p in 0..plan.parts {
            fired += self.try_finish(plan, p) as u32;
        }
        fired
    }
}

impl Network {
    const ZERO: Network = Network { plan: Plan::ZERO, state: State::ZERO };

    /// Opens two sheets, by 1 to 11 and 15.
    pub fn open(net_sheet: &[u8], cut_sheet: &[u8], limit: u64) -> Result<Box<Network>, Refusal> {
        let mut network = Box::new(Network::ZERO);
        network.reopen(net_sheet, cut_sheet, limit)?;
        Ok(network)
    }

    /// The same in the place of an earlier network, which stays as it was where the opening is refused.
    pub fn reopen(&mut self, net_sheet: &[u8], cut_sheet: &[u8], limit: u64) -> Result<(), Refusal> {
        let (mut net, mut cut, mut queues) = (Net::ZERO, Cut::ZERO, Queues::ZERO);
        read_net_into(&mut net, net_sheet)?;
        read_cut_into(&net, &mut cut, &mut queues, cut_sheet)?;
        if !(1..=LONGEST_LIMIT).contains(&limit) {
            return Err(Refusal { answer: 15, place: 0 });
        }
        self.plan.make(&net, &cut, &queues, limit as u32);
        self.state.begin(&self.plan, &net);
        Ok(())
    }

    pub fn nodes(&self) -> usize {
        self.plan.nodes
    }

    pub fn parts(&self) -> usize {
        self.plan.parts
    }

    pub fn queues(&self) -> usize {
        self.plan.queues
    }

    pub fn inputs(&self) -> usize {
        self.plan.inputs
    }

    pub fn outputs(&self) -> usize {
        self.plan.queues - self.plan.inputs - self.plan.channels
    }

    fn puts(&self) -> usize {
        self.plan.queues - self.plan.inputs
    }

    pub fn rules(&self) -> usize {
        self.puts() + self.plan.parts
    }

    /// Feeds an input: 12, 13, 14 or 0.
    #[inline]
    pub fn feed(&mut self, input: usize, v: u32) -> u32 {
        if input >= self.plan.inputs {
            return 12;
        }
        let q = input & (QUEUES - 1);
        if v > self.plan.most[q] {
            return 13;
        }
        let link = &self.plan.link[q];
        if self.state.used[q] >= link.depth {
            return 14;
        }
        self.state.push(link, q, v);
        0
    }

    /// Drains an output: 12 or 14 with 0, or 0 with the oldest token.
    #[inline]
    pub fn drain(&mut self, output: usize) -> (u32, u32) {
        if output >= self.outputs() {
            return (12, 0);
        }
        let q = (self.plan.inputs + self.plan.channels + output) & (QUEUES - 1);
        let state = &mut self.state;
        if state.used[q] == 0 {
            return (14, 0);
        }
        let head = state.head[q];
        state.head[q] = (head + 1) & (DEPTH as u8 - 1);
        state.used[q] -= 1;
        (0, state.cells[(q * DEPTH + head as usize) & (CELLS - 1)])
    }

    /// Whether a rule is ready: 12, 14 or 0. Nothing changes.
    #[inline]
    pub fn ready(&self, rule: usize) -> u32 {
        let ready = if rule < self.puts() {
            let q = (self.plan.inputs + rule) & (QUEUES - 1);
            self.state.put_ready(&self.plan, &self.plan.link[q], q)
        } else if rule < self.rules() {
            self.state.finish_ready(&self.plan, (rule - self.puts()) & (PARTS - 1))
        } else {
            return 12;
        };
        if ready {
            0
        } else {
            14
        }
    }

    /// Fires a rule: 12, 14 or 0.
    #[inline]
    pub fn fire(&mut self, rule: usize) -> u32 {
        let puts = self.puts();
        let done = if rule < puts {
            self.state.try_put(&self.plan, self.plan.inputs + rule)
        } else if rule < self.rules() {
            self.state.try_finish(&self.plan, rule - puts)
        } else {
            return 12;
        };
        if done {
            0
        } else {
            14
        }
    }

    /// Tries each rule once by number, and counts firings.
    pub fn round(&mut self) -> u32 {
        self.state.round(&self.plan)
    }

    /// So many rounds, or up to the first that fires none: answer, rounds, firings.
    pub fn run(&mut self, rounds: u64) -> (u32, u32, u32) {
        if rounds > MOST_ROUNDS {
            return (12, 0, 0);
        }
        let (mut done, mut firings) = (0, 0);
        while (done as u64) < rounds {
            let fired = self.state.round(&self.plan);
            done += 1;
            firings += fired;
            if fired == 0 {
                break;
            }
        }
        (0, done, firings)
    }

    /// An order of three lists: answer, feeds, drains, firings. Refused by 12 where the lists are of unequal length, by 16 where the lent
    /// list has fewer places than there are drain actions.
    pub fn order(&mut self, kinds: &[u32], indexes: &[u32], values: &[u32], lent: &mut [u32]) -> (u32, u32, u32, u32) {
        if kinds.len() != indexes.len() || kinds.len() != values.len() {
            return (12, 0, 0, 0);
        }
        if kinds.iter().filter(|&&kind| kind == 1).count() > lent.len() {
            return (16, 0, 0, 0);
        }
        let actions = kinds.iter().zip(indexes).zip(values);
        self.play(actions.map(|((&kind, &index), &value)| Action { kind, index, value }), lent)
    }

    /// The same of one list of actions.
    pub fn order_of(&mut self, actions: &[Action], lent: &mut [u32]) -> (u32, u32, u32, u32) {
        if actions.iter().filter(|a| a.kind == 1).count() > lent.len() {
            return (16, 0, 0, 0);
        }
        self.play(actions.iter().copied(), lent)
    }

    #[inline(always)]
    fn play(&mut self, actions: impl Iterator<Item = Action>, lent: &mut [u32]) -> (u32, u32, u32, u32) {
        let (mut feeds, mut drains, mut firings) = (0, 0, 0);
        for Action { kind, index, value } in actions {
            match kind {
                0 => feeds += (self.feed(index as usize, value) == 0) as u32,
                1 => {
                    if let (0, v) = self.drain(index as usize) {
                        lent[drains as usize] = v;
                        drains += 1;
                    }
                }
                2 => firings += (self.fire(index as usize) == 0) as u32,
                _ => {}
            }
        }
        (0, feeds, drains, firings)
    }

    /// The number of a queue's tokens: 12 or 0.
    pub fn tokens(&self, queue: usize) -> (u32, u32) {
        if queue < self.plan.queues {
            (0, self.state.used[queue] as u32)
        } else {
            (12, 0)
        }
    }

    /// A part's finished cycles: 12 or 0.
    pub fn cycles(&self, part: usize) -> (u32, u32) {
        if part < self.plan.parts {
            (0, self.state.count[part])
        } else {
            (12, 0)
        }
    }

    /// A queue's tokens, oldest first.
    pub fn waiting(&self, queue: usize) -> impl Iterator<Item = u32> + '_ {
        let q = queue & (QUEUES - 1);
        let (head, used) = (self.state.head[q] as usize, self.state.used[q] as usize);
        (head..head + used).map(move |i| self.state.cells[(q * DEPTH + (i & (DEPTH - 1))) & (CELLS - 1)])
    }

    pub fn flag(&self, queue: usize) -> bool {
        self.state.flag[queue & (QUEUES - 1)]
    }

    /// The registers, each with its node, part after part.
    pub fn registers(&self) -> impl Iterator<Item = (usize, u32)> + '_ {
        let count = self.plan.register_at[PARTS] as usize;
        self.plan.register[..count].iter().map(|&(n, _)| (n as usize, self.state.value[slot_of(n)]))
    }

    /// Fills the plain arrays.
    pub fn canonical(&self, state: &mut Canonical) {
        *state = Canonical::ZERO;
        for q in 0..self.plan.queues {
            for (place, v) in state.cells[q * DEPTH..].iter_mut().zip(self.waiting(q)) {
                *place = v;
            }
        }
        state.used = self.state.used;
        state.flag = self.state.flag;
        for (n, v) in self.registers() {
            state.held[n] = v;
        }
        state.count = self.state.count;
    }
}
