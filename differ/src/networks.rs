// Networks: library and twin opened on the same sheets and called the same way, compared whole after each call.

use crate::chance::Chance;
use crate::expected::{network_differs, plan_of};
use crate::sheets::Read;
use crate::tally::Tally;
use crate::{hold, same, Same};
use twin::sheets::IN;
use twin::Canonical;

/// The two networks, and what is known of both.
struct Both<'a> {
    chance: &'a mut Chance,
    tally: &'a mut Tally,
    plan: boards::Plan,
    network: Box<boards::Network>,
    before: Box<boards::Network>,
    twin: Box<twin::Network>,
    state: Box<Canonical>,
    /// The width of each input.
    widths: Vec<u8>,
    firings: u64,
}

pub fn limit(chance: &mut Chance) -> u32 {
    match chance.below(12) {
        0 => 0,
        1 => 4_000_000_001,
        2 => chance.of(&[u32::MAX, 4_000_000_002, 0x8000_0000, 3_999_999_999]),
        3 | 4 => 1,
        5 | 6 => chance.from_to(2, 9) as u32,
        _ => 4_000_000_000,
    }
}

/// Opens both; and, with calls, makes some of both.
pub fn compare(
    chance: &mut Chance,
    tally: &mut Tally,
    net_sheet: &[u8],
    cut_sheet: &[u8],
    limit: u32,
    read: &Read,
    with_calls: bool,
) -> Same {
    let opened = boards::open(net_sheet, cut_sheet, limit);
    let twin = twin::Network::open(net_sheet, cut_sheet, limit as u64);
    let refusal = twin.as_ref().err().map_or((0, 0), |r| (r.answer, r.place));
    same!("open's answer and place", (opened.answer, opened.place), refusal);
    tally.met("open", opened.answer);
    let Ok(twin) = twin else {
        hold!(opened.plan == *boards::Plan::zeros(), "a refused opening gives a plan");
        hold!(opened.network == *boards::Network::zeros(), "a refused opening gives a network");
        return Ok(());
    };
    let (Ok(net), Ok((cut, queues))) = (&read.net, &read.cut) else { return Err("opened what is not read".into()) };
    let expected = plan_of(net, cut, queues, limit);
    hold!(opened.plan == *expected, "open's plan: {}", plan_differs(&opened.plan, &expected));
    for (seen, what) in [
        (net.nodes == 1024, "1,024 nodes opened"),
        (net.nodes == 1, "1 node opened"),
        (queues.parts == 32, "32 parts opened"),
        (queues.count == 512, "512 queues opened"),
        (net.outputs == 64, "64 outputs opened"),
        (net.outputs == 0, "no outputs opened"),
        (limit == 4_000_000_000, "limit 4,000,000,000 opened"),
    ] {
        if seen {
            tally.see(what);
        }
    }
    let boards::Opened { plan, network, .. } = *opened;
    let mut both = Both {
        chance,
        tally,
        plan,
        network: Box::new(network),
        before: boards::Network::zeros(),
        twin,
        state: Box::new(Canonical::ZERO),
        widths: net.record[..net.nodes].iter().filter(|x| x.code == IN).map(|x| x.w).collect(),
        firings: 0,
    };
    both.after(0, "open")?;
    if !with_calls {
        return Ok(());
    }
    for _ in 0..both.chance.from_to(4, if net.nodes < 100 { 60 } else { 20 }) {
        both.call()?;
    }
    both.questions(usize::MAX)?;
    both.counts_seen();
    hold!(both.plan == *expected, "a call changed the plan: {}", plan_differs(&both.plan, &expected));
    Ok(())
}

fn plan_differs(x: &boards::Plan, y: &boards::Plan) -> &'static str {
    [
        ("limit", x.limit == y.limit),
        ("nodes", x.nodes == y.nodes),
        ("parts", x.parts == y.parts),
        ("inputs", x.inputs == y.inputs),
        ("channels", x.channels == y.channels),
        ("outputs", x.outputs == y.outputs),
        ("queues", x.queues == y.queues),
        ("rules", x.rules == y.rules),
        ("code", x.code == y.code),
        ("width", x.width == y.width),
        ("join", x.join == y.join),
        ("k", x.k == y.k),
        ("ra", x.ra == y.ra),
        ("rb", x.rb == y.rb),
        ("rc", x.rc == y.rc),
        ("part", x.part == y.part),
        ("node", x.node == y.node),
        ("from", x.from == y.from),
        ("into", x.into == y.into),
        ("depth", x.depth == y.depth),
    ]
    .into_iter()
    .find(|(_, same)| !same)
    .map_or("nothing", |(name, _)| name)
}

impl Both<'_> {
    /// An index: mostly one that is there, sometimes the first that is not, or one that is there once it is cut to 8 or 16 bits.
    fn index(&mut self, count: usize) -> u32 {
        match self.chance.below(14) {
            0 => count as u32,
            1 => self.chance.of(&[u32::MAX, 0x8000_0000, 65_536, 256, 1 << 20]),
            _ => self.chance.below(count.max(1)) as u32,
        }
    }

    fn value(&mut self, input: u32) -> u32 {
        let Some(&w) = self.widths.get(input as usize) else { return self.chance.u32() };
        if w < 32 && self.chance.one_in(9) {
            return self.chance.of(&[1u32 << w, u32::MAX, (1u32 << w) + 1]);
        }
        self.chance.value(w)
    }

    /// The networks are one another's, and a refused call changed nothing.
    fn after(&mut self, answer: u32, what: &str) -> Same {
        self.twin.canonical(&mut self.state);
        if let Some(place) = network_differs(&self.network, &self.state) {
            return Err(format!("after {what}: {place}"));
        }
        if answer != 0 {
            hold!(self.network == self.before, "refused, {what} changed the network");
        }
        if self.network.used.contains(&16) {
            self.tally.see("depth 16 filled");
        }
        Ok(())
    }

    fn call(&mut self) -> Same {
        self.before.clone_from(&self.network);
        match self.chance.below(16) {
            0 | 1 => self.feed(),
            2 | 3 => self.drain(),
            4 | 5 => self.fire(),
            6..=8 => self.round(),
            9 => self.run(),
            10 | 11 => self.order(),
            12 | 13 => self.pump(),
            _ => self.questions(12),
        }
    }

    fn feed(&mut self) -> Same {
        let input = self.index(self.plan.inputs);
        let value = self.value(input);
        let answer = boards::feed(&self.plan, &mut self.network, input, value);
        same!(format!("feed {input} {value}"), answer, self.twin.feed(input as usize, value));
        self.tally.met("feed", answer);
        self.after(answer, "feed")
    }

    fn drain(&mut self) -> Same {
        let output = self.index(self.plan.outputs);
        let drained = boards::drain(&self.plan, &mut self.network, output);
        same!(format!("drain {output}"), (drained.answer, drained.value), self.twin.drain(output as usize));
        self.tally.met("drain", drained.answer);
        self.after(drained.answer, "drain")
    }

    fn fire(&mut self) -> Same {
        // One that is ready, where there is one soon behind.
        let mut rule = self.index(self.plan.rules);
        for _ in 0..if self.chance.one_in(2) { 40 } else { 0 } {
            if self.twin.ready(rule as usize) != 14 {
                break;
            }
            rule = (rule + 1) % self.plan.rules as u32;
        }
        let ready = boards::ready(&self.plan, &self.network, rule);
        let answer = boards::fire(&self.plan, &mut self.network, rule);
        same!(format!("fire {rule}"), answer, self.twin.fire(rule as usize));
        same!(format!("ready {rule} right before its fire"), ready, answer);
        self.tally.met("fire", answer);
        self.firings += (answer == 0) as u64;
        self.after(answer, "fire")
    }

    fn round(&mut self) -> Same {
        let fired = boards::round(&self.plan, &mut self.network);
        same!("round", fired, self.twin.round() as usize);
        self.tally.met("round", 0);
        self.firings += fired as u64;
        self.after(0, "round")
    }

    fn run(&mut self) -> Same {
        let few = self.chance.from_to(1, if self.plan.nodes < 64 { 200 } else { 10 }) as u32;
        let mut rounds = self.chance.of(&[0, 1, 2, few, few, few, 65_536, u32::MAX, 65_537]);
        // All rounds that one run may have: a network that never stops takes its time.
        if self.plan.nodes <= 16 && self.chance.one_in(6) {
            rounds = 65_535;
        }
        let ran = boards::run(&self.plan, &mut self.network, rounds);
        let (answer, done, firings) = self.twin.run(rounds as u64);
        same!(format!("run {rounds}"), (ran.answer, ran.rounds, ran.firings), (answer, done as usize, firings as usize));
        self.tally.met("run", answer);
        if ran.rounds == 65_535 {
            self.tally.see("run of 65,535 rounds to its end");
        }
        if answer == 0 && ran.rounds < rounds as usize {
            self.tally.see("run ended by a round that fired none");
        }
        self.firings += ran.firings as u64;
        self.after(answer, "run")
    }

    fn order(&mut self) -> Same {
        let length = match self.chance.below(8) {
            0 => 0,
            1 => self.chance.from_to(200, 400),
            _ => self.chance.from_to(1, 60),
        };
        let (mut kinds, mut indexes, mut values) = (Vec::new(), Vec::new(), Vec::new());
        let mut drains = 0;
        for _ in 0..length {
            let kind = if self.chance.one_in(12) { self.chance.of(&[3, 4, 255, 256, 257, 65_536, u32::MAX]) } else { self.chance.below(3) as u32 };
            let index = match kind {
                0 => self.index(self.plan.inputs),
                1 => self.index(self.plan.outputs),
                2 => self.index(self.plan.rules),
                _ => self.chance.below(4) as u32,
            };
            if kind > 2 {
                self.tally.see("order with an unknown kind");
            }
            drains += (kind == 1) as usize;
            kinds.push(kind);
            indexes.push(index);
            values.push(if kind == 0 { self.value(index) } else { self.chance.u32() });
        }
        let mut places = drains + self.chance.below(4);
        if self.chance.one_in(8) && drains > 0 {
            places = if self.chance.one_in(2) { drains - 1 } else { self.chance.below(drains) };
        }
        if self.chance.one_in(10) {
            let list = match self.chance.below(3) {
                0 => &mut kinds,
                1 => &mut indexes,
                _ => &mut values,
            };
            if self.chance.one_in(2) || list.is_empty() {
                list.push(0);
            } else {
                list.pop();
            }
        }
        self.play(&kinds, &indexes, &values, places)
    }

    /// An order that moves things: a token or more for each input, rounds as firings, everything drained.
    fn pump(&mut self) -> Same {
        let (mut kinds, mut indexes, mut values) = (Vec::new(), Vec::new(), Vec::new());
        for _ in 0..self.chance.of(&[1, 1, 1, 2, 17]) {
            for (i, &w) in self.widths.iter().enumerate() {
                kinds.push(0);
                indexes.push(i as u32);
                values.push(self.chance.value(w));
            }
        }
        let fires = self.chance.one_in(3);
        for rule in 0..if fires { self.plan.rules } else { 0 } {
            kinds.push(2);
            indexes.push(rule as u32);
            values.push(self.chance.u32());
        }
        let drains = if self.chance.one_in(3) { 0 } else { self.plan.outputs };
        for output in 0..drains {
            kinds.push(1);
            indexes.push(output as u32);
            values.push(0);
        }
        self.play(&kinds, &indexes, &values, drains)
    }

    fn play(&mut self, kinds: &[u32], indexes: &[u32], values: &[u32], places: usize) -> Same {
        let lent: Vec<u32> = (0..places).map(|_| self.chance.u32()).collect();
        let (mut drained, mut twins) = (lent.clone(), lent.clone());
        if kinds.len() == indexes.len() && kinds.len() == values.len() {
            self.acted(kinds, indexes, values, &lent)?;
        }
        let played = boards::order(&self.plan, &mut self.network, kinds, indexes, values, &mut drained);
        let (answer, feeds, drains, firings) = self.twin.order(kinds, indexes, values, &mut twins);
        let expected = (answer, feeds as usize, drains as usize, firings as usize);
        same!("order's answer and counts", (played.answer, played.feeds, played.drains, played.firings), expected);
        self.tally.met("order", answer);
        if answer == 0 && kinds.len() > 200 {
            self.tally.see("order of more than 200 actions");
        }
        hold!(drained == twins, "order's drained values, or places past them");
        hold!(drained[played.drains..] == lent[played.drains..], "order changed places past the last drained value");
        self.firings += played.firings as u64;
        self.after(answer, "order")
    }

    /// The order of three lists and its actions in one, each on its own copy of the network.
    fn acted(&mut self, kinds: &[u32], indexes: &[u32], values: &[u32], lent: &[u32]) -> Same {
        let actions: Vec<boards::Action> =
            (0..kinds.len()).map(|i| boards::Action { kind: kinds[i], index: indexes[i], value: values[i] }).collect();
        let kept = actions.clone();
        let (mut by_lists, mut by_actions) = (self.network.clone(), self.network.clone());
        let (mut listed, mut drained) = (lent.to_vec(), lent.to_vec());
        let expected = boards::order(&self.plan, &mut by_lists, kinds, indexes, values, &mut listed);
        let played = boards::actions(&self.plan, &mut by_actions, &actions, &mut drained);
        hold!(played == expected, "actions' answer and counts: {played:?}, by three lists {expected:?}");
        hold!(drained == listed, "actions' drained values, or places past them");
        hold!(by_actions == by_lists, "actions leave another network than the three lists");
        hold!(actions == kept, "actions were changed");
        self.tally.met("actions", played.answer);
        if played.answer == 0 {
            self.tally.see("actions played as the three lists are");
            let counts = [self.plan.inputs, self.plan.outputs, self.plan.rules];
            for (seen, what) in [
                (actions.is_empty(), "no actions played as empty lists are"),
                (actions.iter().any(|a| a.kind > 2), "actions with an unknown kind among them"),
                (actions.iter().any(|a| a.kind <= 2 && a.index as usize >= counts[a.kind as usize]), "actions with an index that is not there"),
            ] {
                if seen {
                    self.tally.see(what);
                }
            }
        }
        Ok(())
    }

    /// Tokens, finished cycles and ready of some things, or of all; and the firing sum.
    fn questions(&mut self, most: usize) -> Same {
        self.before.clone_from(&self.network);
        for turn in 0..=self.plan.queues.min(most) {
            let queue = if most == usize::MAX { turn as u32 } else { self.index(self.plan.queues) };
            let told = boards::tokens(&self.plan, &self.network, queue);
            same!(format!("tokens of queue {queue}"), (told.answer, told.value), self.twin.tokens(queue as usize));
            self.tally.met("tokens", told.answer);
        }
        for turn in 0..=self.plan.parts.min(most) {
            let part = if most == usize::MAX { turn as u32 } else { self.index(self.plan.parts) };
            let told = boards::finished(&self.plan, &self.network, part);
            same!(format!("finished cycles of part {part}"), (told.answer, told.value), self.twin.cycles(part as usize));
            self.tally.met("finished", told.answer);
        }
        for turn in 0..=self.plan.rules.min(most) {
            let rule = if most == usize::MAX { turn as u32 } else { self.index(self.plan.rules) };
            let answer = boards::ready(&self.plan, &self.network, rule);
            same!(format!("ready of rule {rule}"), answer, self.twin.ready(rule as usize));
            self.tally.met("ready", answer);
        }
        hold!(self.network == self.before, "a question changed the network");
        let mut sum = self.network.flag.iter().filter(|f| **f).count() as u64;
        for part in 0..self.plan.parts {
            let puts = (self.plan.inputs..self.plan.queues).filter(|&q| self.plan.from[q] as usize == part).count() as u64;
            sum += self.network.count[part] as u64 * (puts + 1);
        }
        same!("firings since opening, and the sum over parts", self.firings, sum);
        Ok(())
    }

    fn counts_seen(&mut self) {
        let counts = &self.network.count[..self.plan.parts];
        if counts.len() >= 4 && counts.iter().all(|c| *c >= 20) {
            self.tally.see("20 cycles or more of 4 parts or more");
        }
        if counts.contains(&self.plan.limit) {
            self.tally.see(if self.plan.limit == 1 { "limit 1 reached" } else { "a limit above 1 reached" });
        }
    }
}
