// The plain stepper: one value in for each IN, one out for each output, all registers together (outline, "A cycle").

use crate::sheets::{mask, Net, CONST, IN, NODES, OUTPUTS, REG};
use crate::values::{run, step_of, Step, SLOTS};

/// A netlist made ready to step, with its registers.
#[derive(Clone, Debug)]
pub struct Stepper {
    steps: [Step; NODES],
    count: usize,
    /// The INs by node: their slots and the largest value each may have.
    input: [(u16, u32); NODES],
    inputs: usize,
    output: [u16; OUTPUTS],
    outputs: usize,
    /// The REGs by node: their slots and their operands'.
    register: [(u16, u16); NODES],
    registers: usize,
    value: [u32; SLOTS],
    next: [u32; NODES],
}

impl Stepper {
    /// A stepper of a netlist that was read, before cycle 1.
    pub fn new(net: &Net) -> Box<Stepper> {
        let mut s = Box::new(Stepper {
            steps: [Step::ZERO; NODES],
            count: 0,
            input: [(0, 0); NODES],
            inputs: 0,
            output: [0; OUTPUTS],
            outputs: 0,
            register: [(0, 0); NODES],
            registers: 0,
            value: [0; SLOTS],
            next: [0; NODES],
        });
        s.take(net);
        s
    }

    /// Makes the stepper one of another netlist, at its first registers.
    pub fn take(&mut self, net: &Net) {
        (self.count, self.inputs, self.registers) = (0, 0, 0);
        self.value = [0; SLOTS];
        for (n, x) in net.record[..net.nodes.min(NODES)].iter().enumerate() {
            match x.code {
                IN => {
                    self.input[self.inputs] = (n as u16, mask(x.w));
                    self.inputs += 1;
                }
                CONST => self.value[n] = x.k,
                REG => {
                    self.value[n] = x.k;
                    self.register[self.registers] = (n as u16, x.a);
                    self.registers += 1;
                }
                _ => {
                    let width_of_b = net.record[x.b as usize & (NODES - 1)].w;
                    if let Some(step) = step_of(x, [x.a, x.b, x.c], n as u16, width_of_b) {
                        self.steps[self.count] = step;
                        self.count += 1;
                    }
                }
            }
        }
        self.outputs = net.outputs.min(OUTPUTS);
        self.output = net.output;
    }

    pub fn inputs(&self) -> usize {
        self.inputs
    }

    pub fn outputs(&self) -> usize {
        self.outputs
    }

    /// The register of a node; 0 for a node that is none.
    pub fn held(&self) -> [u32; NODES] {
        let mut held = [0; NODES];
        for &(n, _) in &self.register[..self.registers] {
            held[n as usize] = self.value[n as usize];
        }
        held
    }

    /// Sets the registers, by node. Only registers that a stepper of this netlist gave make sense here.
    pub fn hold(&mut self, held: &[u32; NODES]) {
        for &(n, _) in &self.register[..self.registers] {
            self.value[n as usize] = held[n as usize];
        }
    }

    /// The registers by node order, the REGs alone.
    pub fn registers(&self) -> impl Iterator<Item = u32> + '_ {
        self.register[..self.registers].iter().map(|&(n, _)| self.value[n as usize & (SLOTS - 1)])
    }

    #[inline]
    fn cycle(&mut self, given: &[u32], lent: &mut [u32]) {
        for (&(n, _), &v) in self.input[..self.inputs].iter().zip(given) {
            self.value[n as usize & (SLOTS - 1)] = v;
        }
        run(&self.steps[..self.count], &mut self.value);
        for (&n, place) in self.output[..self.outputs].iter().zip(lent) {
            *place = self.value[n as usize & (SLOTS - 1)];
        }
        let register = &self.register[..self.registers];
        for (&(_, from), next) in register.iter().zip(self.next.iter_mut()) {
            *next = self.value[from as usize & (SLOTS - 1)];
        }
        for (&(n, _), next) in register.iter().zip(self.next.iter()) {
            self.value[n as usize & (SLOTS - 1)] = *next;
        }
    }

    /// One cycle.
    pub fn step(&mut self, given: &[u32], lent: &mut [u32]) -> u32 {
        self.steps(1, given, lent)
    }

    /// So many cycles: the INs' values cycle by cycle, and the outputs' to the front of the lent list. Refused by 12, 13, 16; then
    /// nothing changes.
    pub fn steps(&mut self, cycles: u64, given: &[u32], lent: &mut [u32]) -> u32 {
        if cycles as u128 * self.inputs as u128 != given.len() as u128 {
            return 12;
        }
        if self.inputs > 0 {
            for row in given.chunks_exact(self.inputs) {
                if row.iter().zip(&self.input[..self.inputs]).any(|(&v, &(_, most))| v > most) {
                    return 13;
                }
            }
        }
        if cycles as u128 * self.outputs as u128 > lent.len() as u128 {
            return 16;
        }
        let (mut given, mut lent) = (given, lent);
        for _ in 0..cycles {
            let (now, later) = given.split_at(self.inputs);
            let (here, behind) = lent.split_at_mut(self.outputs);
            self.cycle(now, here);
            (given, lent) = (later, behind);
        }
        0
    }
}
