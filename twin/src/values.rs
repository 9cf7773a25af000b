// Values: the nodes that follow their operands, as steps over one array of slots (outline, "The nineteen codes").

use crate::sheets::{mask, Record, ADD, AND, ANY, CAT, EQ, LTU, MUX, NEG, NODES, NOT, OR, PAR, SHL, SHR, SLICE, SUB, XOR};

/// Slots 0 to 1,023 hold the nodes' values, slot FRONT + q the oldest token of queue q. There are more, so that a slot number can be
/// reduced by a mask.
pub const SLOTS: usize = 2048;
pub const FRONT: usize = NODES;

#[derive(Clone, Copy, Debug, PartialEq, Eq)]
pub enum Work {
    Not,
    Neg,
    Any,
    Par,
    And,
    Or,
    Xor,
    Add,
    Sub,
    Eq,
    Ltu,
    Shl,
    Shr,
    Mux,
    Cat,
    Slice,
}

/// One node's step: what to do, from which slots, to which slot, reduced by which mask. `by` is SLICE's k, or the width of CAT's b.
#[derive(Clone, Copy, Debug)]
pub struct Step {
    pub mask: u32,
    pub a: u16,
    pub b: u16,
    pub c: u16,
    pub to: u16,
    pub work: Work,
    pub by: u8,
}

impl Step {
    pub const ZERO: Step = Step { mask: 0, a: 0, b: 0, c: 0, to: 0, work: Work::Not, by: 0 };
}

/// The step of a record, its operands in the given slots; none for IN, CONST and REG.
pub fn step_of(x: &Record, slot: [u16; 3], to: u16, width_of_b: u8) -> Option<Step> {
    let work = match x.code {
        NOT => Work::Not,
        NEG => Work::Neg,
        ANY => Work::Any,
        PAR => Work::Par,
        AND => Work::And,
        OR => Work::Or,
        XOR => Work::Xor,
        ADD => Work::Add,
        SUB => Work::Sub,
        EQ => Work::Eq,
        LTU => Work::Ltu,
        SHL => Work::Shl,
        SHR => Work::Shr,
        MUX => Work::Mux,
        CAT => Work::Cat,
        SLICE => Work::Slice,
        _ => return None,
    };
    let by = match work {
        Work::Cat => width_of_b,
        Work::Slice => (x.k & 31) as u8,
        _ => 0,
    };
    Some(Step { mask: mask(x.w), a: slot[0], b: slot[1], c: slot[2], to, work, by })
}

/// Takes the steps in order, each node once.
#[inline]
pub fn run(steps: &[Step], value: &mut [u32; SLOTS]) {
    for s in steps {
        let a = value[s.a as usize & (SLOTS - 1)];
        let b = value[s.b as usize & (SLOTS - 1)];
        let by = s.by as u32 & 31;
        let x = match s.work {
            Work::Not => !a,
            Work::Neg => 0u32.wrapping_sub(a),
            Work::Any => (a != 0) as u32,
            Work::Par => a.count_ones() & 1,
            Work::And => a & b,
            Work::Or => a | b,
            Work::Xor => a ^ b,
            Work::Add => a.wrapping_add(b),
            Work::Sub => a.wrapping_sub(b),
            Work::Eq => (a == b) as u32,
            Work::Ltu => (a < b) as u32,
            Work::Shl => a << (b & 31),
            Work::Shr => a >> (b & 31),
            Work::Mux => {
                let c = value[s.c as usize & (SLOTS - 1)];
                if a != 0 {
                    b
                } else {
                    c
                }
            }
            Work::Cat => a << by | b,
            Work::Slice => a >> by,
        };
        value[s.to as usize & (SLOTS - 1)] = x & s.mask;
    }
}
