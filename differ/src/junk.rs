// Netlists, registers, plans and networks that no call gave: each call ends, keeps within its buffers, and gives the same twice.

use crate::chance::Chance;
use crate::tally::Tally;
use crate::{hold, same, Same};

const GUARD: u64 = 0x5AFE_C0DE_5AFE_C0DE;

/// A struct between two guards.
#[repr(C)]
#[derive(Clone, PartialEq)]
struct Kept<T> {
    before: [u64; 16],
    it: T,
    after: [u64; 16],
}

impl<T> Kept<T> {
    fn new(it: T) -> Box<Kept<T>> {
        Box::new(Kept { before: [GUARD; 16], it, after: [GUARD; 16] })
    }

    fn whole(&self) -> bool {
        self.before == [GUARD; 16] && self.after == [GUARD; 16]
    }
}

fn count(chance: &mut Chance, most: usize) -> usize {
    match chance.below(6) {
        0 => chance.of(&[0, most, most + 1, usize::MAX, 1 << 32, 1 << 63, 65_535]),
        _ => chance.below(most + 1),
    }
}

fn small(chance: &mut Chance, most: u32) -> u32 {
    if chance.one_in(10) {
        chance.u32()
    } else {
        chance.u32() % most
    }
}

fn netlist(chance: &mut Chance) -> Box<boards::Netlist> {
    let mut n = boards::Netlist::zeros();
    n.nodes = count(chance, 1024);
    n.code.fill_with(|| if chance.one_in(10) { chance.byte() } else { chance.of(&crate::drawings::CODES) });
    n.width.fill_with(|| small(chance, 34) as u8);
    n.a.fill_with(|| small(chance, 1030) as u16);
    n.b.fill_with(|| small(chance, 1030) as u16);
    n.c.fill_with(|| small(chance, 1030) as u16);
    n.k.fill_with(|| small(chance, 70));
    n.outputs = count(chance, 64);
    n.output.fill_with(|| small(chance, 1030) as u16);
    n.labels = count(chance, 4096);
    n.label.fill_with(|| chance.byte());
    n
}

fn plan(chance: &mut Chance) -> Box<boards::Plan> {
    let mut p = boards::Plan::zeros();
    p.limit = small(chance, 9);
    p.nodes = count(chance, 1024);
    p.parts = count(chance, 32);
    p.inputs = count(chance, 512);
    p.channels = count(chance, 512);
    p.outputs = count(chance, 64);
    p.queues = count(chance, 512);
    p.rules = count(chance, 544);
    p.code.fill_with(|| if chance.one_in(10) { chance.byte() } else { chance.of(&crate::drawings::CODES) });
    p.width.fill_with(|| small(chance, 34) as u8);
    p.join.fill_with(|| small(chance, 34) as u8);
    p.k.fill_with(|| small(chance, 70));
    p.ra.fill_with(|| small(chance, 1540) as u16);
    p.rb.fill_with(|| small(chance, 1540) as u16);
    p.rc.fill_with(|| small(chance, 1540) as u16);
    p.part.fill_with(|| small(chance, 34) as u8);
    p.node.fill_with(|| small(chance, 1030) as u16);
    p.from.fill_with(|| small(chance, 34) as u8);
    p.into.fill_with(|| small(chance, 34) as u8);
    p.depth.fill_with(|| small(chance, 18) as u8);
    p
}

fn network(chance: &mut Chance) -> Box<boards::Network> {
    let mut n = boards::Network::zeros();
    n.cells.fill_with(|| chance.u32());
    n.used.fill_with(|| small(chance, 18) as u8);
    n.flag.fill_with(|| chance.one_in(2));
    n.held.fill_with(|| chance.u32());
    n.count.fill_with(|| small(chance, 9));
    n
}

fn stepped(chance: &mut Chance, tally: &mut Tally) -> Same {
    let netlist = Kept::new(*netlist(chance));
    let mut regs = Kept::new([0u32; 1024]);
    regs.it.fill_with(|| chance.u32());
    let mut again = regs.clone();
    boards::first_registers(&netlist.it, &mut regs.it);
    boards::first_registers(&netlist.it, &mut again.it);
    hold!(regs == again && regs.whole(), "first_registers of a netlist that nothing gave");
    regs.it.fill_with(|| chance.u32());
    again.it = regs.it;
    let ins = netlist.it.code.iter().take(netlist.it.nodes).filter(|c| **c == 0).count();
    let cycles = chance.below(3) as u32;
    let ins: Vec<u32> = (0..ins * cycles as usize).map(|_| small(chance, 2)).collect();
    let lent: Vec<u32> = (0..64 * 3 + 8).map(|_| chance.u32()).collect();
    let (mut outs, mut outs_again) = (lent.clone(), lent.clone());
    let places = 64 * cycles as usize;
    let answer = boards::steps(&netlist.it, &mut regs.it, cycles, &ins, &mut outs[..places]);
    let twice = boards::steps(&netlist.it, &mut again.it, cycles, &ins, &mut outs_again[..places]);
    hold!(regs.whole() && netlist.whole(), "steps of a netlist that nothing gave: guards");
    hold!(outs[places..] == lent[places..], "steps of a netlist that nothing gave: past the lent list");
    same!("steps of a netlist that nothing gave, twice", answer, twice);
    hold!(regs == again && outs == outs_again, "steps of a netlist that nothing gave, twice: registers and outputs");
    if answer == 0 {
        tally.see("junk netlist stepped");
    }
    let sheet: Vec<u8> = (0..chance.below(200)).map(|_| chance.byte()).collect();
    hold!(boards::read_cut(&netlist.it, &sheet) == boards::read_cut(&netlist.it, &sheet), "read_cut of a netlist that nothing gave, twice");
    Ok(())
}

fn called(chance: &mut Chance, tally: &mut Tally) -> Same {
    let plan = Kept::new(*plan(chance));
    let kept = plan.clone();
    let mut first = Kept::new(*network(chance));
    let mut second = first.clone();
    for _ in 0..12 {
        let (kind, index, value) = (chance.below(9), small(chance, 600), small(chance, 4));
        let kinds: Vec<u32> = (0..20).map(|_| small(chance, 4)).collect();
        let indexes: Vec<u32> = (0..20).map(|_| small(chance, 600)).collect();
        let lent: Vec<u32> = (0..24).map(|_| chance.u32()).collect();
        let call = |network: &mut boards::Network| {
            let p = &plan.it;
            let mut drained = lent.clone();
            let given = match kind {
                0 => (boards::feed(p, network, index, value), 0, 0),
                1 => {
                    let d = boards::drain(p, network, index);
                    (d.answer, d.value as usize, 0)
                }
                2 => (boards::fire(p, network, index), 0, 0),
                3 => (0, boards::round(p, network), 0),
                4 => {
                    let r = boards::run(p, network, value);
                    (r.answer, r.rounds, r.firings)
                }
                5 => {
                    let d = boards::order(p, network, &kinds, &indexes, &indexes, &mut drained[..20]);
                    (d.answer, d.feeds + 1000 * d.drains, d.firings)
                }
                6 => {
                    let actions: Vec<boards::Action> =
                        (0..20).map(|i| boards::Action { kind: kinds[i], index: indexes[i], value: indexes[i] }).collect();
                    let d = boards::actions(p, network, &actions, &mut drained[..20]);
                    (d.answer, d.feeds + 1000 * d.drains, d.firings)
                }
                7 => {
                    let (t, f) = (boards::tokens(p, network, index), boards::finished(p, network, index));
                    (t.answer, t.value as usize, f.value as usize)
                }
                _ => (boards::ready(p, network, index), 0, 0),
            };
            (given, drained)
        };
        let (given, drained) = call(&mut first.it);
        let (twice, drained_twice) = call(&mut second.it);
        hold!(drained[20..] == lent[20..], "an order on a network that nothing gave went past its list");
        same!("a call on a network that nothing gave, twice", (given, drained), (twice, drained_twice));
    }
    hold!(plan == kept, "a call on a plan that nothing gave changed it");
    hold!(first.whole() && first == second, "calls on a network that nothing gave, twice: guards and network");
    tally.see("junk network called");
    Ok(())
}

pub fn compare(chance: &mut Chance, tally: &mut Tally) -> Same {
    stepped(chance, tally)?;
    called(chance, tally)
}
