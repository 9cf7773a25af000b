// The plain stepper: library and twin on the same drawings, values and lent lists.

use crate::chance::Chance;
use crate::expected::netlist_of;
use crate::tally::Tally;
use crate::{hold, same, Same};
use twin::sheets::{IN, REG};
use twin::{Net, Stepper};

pub fn compare(chance: &mut Chance, tally: &mut Tally, net: &Net) -> Same {
    let netlist = netlist_of(net);
    let mut twins = Stepper::new(net);
    let mut regs = [0u32; 1024];
    regs.fill_with(|| chance.u32());
    boards::first_registers(&netlist, &mut regs);
    hold!(regs == twins.held(), "first_registers");
    tally.met("first_registers", 0);
    for (n, x) in net.record[..net.nodes].iter().enumerate().filter(|(_, x)| x.code == REG) {
        if x.a as usize > n {
            tally.see("register of a later node");
        } else if x.a as usize == n {
            tally.see("register of itself");
        }
    }
    let widths: Vec<u8> = net.record[..net.nodes].iter().filter(|x| x.code == IN).map(|x| x.w).collect();
    for _ in 0..chance.from_to(3, 8) {
        let cycles = chance.of(&[0, 1, 1, 2, 3, 10]);
        let mut ins: Vec<u32> = (0..cycles).flat_map(|_| widths.iter().map(|&w| chance.value(w)).collect::<Vec<_>>()).collect();
        let needed = cycles as usize * net.outputs;
        // One fault, or several at once: the first by number decides.
        let mut places = needed + chance.below(5);
        if chance.one_in(6) && needed > 0 {
            places = if chance.one_in(2) { needed - 1 } else { chance.below(needed) };
        }
        if chance.one_in(6) && !ins.is_empty() {
            let at = chance.below(ins.len());
            let w = widths[at % widths.len()];
            ins[at] = if w < 32 { chance.of(&[1u32 << w, u32::MAX, (1u32 << w) + 1]) } else { ins[at] };
        }
        if chance.one_in(6) {
            match chance.below(3) {
                0 => ins.push(0),
                1 => drop(ins.pop()),
                _ => ins.truncate(chance.below(ins.len() + 1)),
            }
        }
        // More cycles than the lists are for; with neither an IN nor an output they would all be run.
        let cycles = if chance.one_in(12) && (!widths.is_empty() || net.outputs > 0) { chance.of(&[u32::MAX, 0x8000_0000]) } else { cycles };
        let lent: Vec<u32> = (0..places).map(|_| chance.u32()).collect();
        let (mut outs, mut twins_outs) = (lent.clone(), lent.clone());
        let before = regs;
        let one = cycles == 1 && chance.one_in(2);
        let answer = if one {
            boards::step(&netlist, &mut regs, &ins, &mut outs)
        } else {
            boards::steps(&netlist, &mut regs, cycles, &ins, &mut outs)
        };
        let expected = if one { twins.step(&ins, &mut twins_outs) } else { twins.steps(cycles as u64, &ins, &mut twins_outs) };
        same!(format!("steps of {cycles} cycles: answer"), answer, expected);
        tally.met(if one { "step" } else { "steps" }, answer);
        hold!(outs == twins_outs, "steps of {cycles} cycles: outputs, or places past them");
        hold!(regs == twins.held(), "steps of {cycles} cycles: registers");
        if answer != 0 {
            hold!(regs == before && outs == lent, "refused steps changed registers or places");
        } else {
            hold!(outs[needed..] == lent[needed..], "steps changed places past the last value");
        }
    }
    Ok(())
}
