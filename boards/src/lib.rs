// The proved library for the boards' hosts, as safe Rust: its structs, its calls in C's convention, and a safe function over each.
//
// No call asks anything of its caller: every function is proved to end within its buffers on any arguments, so a safe function over it
// tests nothing. What each call promises stands in docs/PROMISES.md; boards/check holds the structs and the declarations here to the sources.
#![no_std]
extern crate alloc;
use alloc::boxed::Box;

/// The outline's numbers.
pub const NODES: usize = 1024;
pub const OUTPUTS: usize = 64;
pub const PARTS: usize = 32;
pub const QUEUES: usize = 512;
pub const DEPTH: usize = 16;
pub const PLACES: usize = QUEUES * DEPTH;
pub const LABEL_BYTES: usize = 4096;
pub const MOST_ROUNDS: u32 = 65_535;
pub const LONGEST_LIMIT: u32 = 4_000_000_000;
/// The part at the outer end of an input's or an output's queue; no queue; and no operand.
pub const OUTSIDE: u8 = 32;
pub const NO_QUEUE: u16 = 512;
pub const NO_OPERAND: u16 = 1536;

macro_rules! structs {
    ($($(#[$doc:meta])* $name:ident { $($field:ident: $type:ty,)* })*) => {$(
        $(#[$doc])*
        #[repr(C)]
        #[derive(Clone, Debug, PartialEq, Eq)]
        pub struct $name {
            $(pub $field: $type,)*
        }

        impl $name {
            /// All zeros, made in its place.
            pub fn zeros() -> Box<$name> {
                // Numbers, bools and arrays of them alone: zero bytes are a value.
                unsafe { Box::new_zeroed().assume_init() }
            }
        }
    )*};
}

structs! {
    /// A netlist: for each node its record's fields, the outputs, and the bytes of the labels section.
    Netlist {
        nodes: usize,
        code: [u8; NODES],
        width: [u8; NODES],
        a: [u16; NODES],
        b: [u16; NODES],
        c: [u16; NODES],
        k: [u32; NODES],
        outputs: usize,
        output: [u16; OUTPUTS],
        labels: usize,
        label: [u8; LABEL_BYTES],
    }
    /// What reading a net sheet gives; refused, the netlist is zeros.
    NetRead {
        answer: u32,
        place: usize,
        net: Netlist,
    }
    /// What a writer gives; refused, the length is 0.
    Wrote {
        answer: u32,
        place: usize,
        length: usize,
    }
    /// A cut: a part number for each node, a depth for each queue, and the bytes of the labels section.
    Cut {
        nodes: usize,
        part: [u8; NODES],
        queues: usize,
        depth: [u8; QUEUES],
        labels: usize,
        label: [u8; LABEL_BYTES],
    }
    /// The queues of a cut: inputs, channels, outputs. For each its node, the part that puts and the part that takes; for each IN its queue,
    /// and for each operand of another part the queue that it is read from.
    Queues {
        parts: usize,
        count: usize,
        inputs: usize,
        channels: usize,
        outputs: usize,
        node: [u16; QUEUES],
        from: [u8; QUEUES],
        into: [u8; QUEUES],
        input: [u16; NODES],
        a: [u16; NODES],
        b: [u16; NODES],
        c: [u16; NODES],
    }
    /// What reading a cut sheet gives; refused, cut and queues are zeros.
    CutRead {
        answer: u32,
        place: usize,
        cut: Cut,
        queues: Queues,
    }
    /// Where a node's label stands: in the cut sheet or else in the net sheet, from a byte on, so many bytes.
    Spot {
        cut: bool,
        found: bool,
        from: usize,
        length: usize,
    }
    /// What opening works out once and no call changes; one plan serves many networks.
    Plan {
        limit: u32,
        nodes: usize,
        parts: usize,
        inputs: usize,
        channels: usize,
        outputs: usize,
        queues: usize,
        rules: usize,
        code: [u8; NODES],
        width: [u8; NODES],
        join: [u8; NODES],
        k: [u32; NODES],
        ra: [u16; NODES],
        rb: [u16; NODES],
        rc: [u16; NODES],
        part: [u8; NODES],
        node: [u16; QUEUES],
        from: [u8; QUEUES],
        into: [u8; QUEUES],
        depth: [u8; QUEUES],
    }
    /// What calls change: each queue's 16 places, oldest token first and zeros behind the last; how many tokens it has; each put rule's done flag
    /// by its queue; what each REG holds by its node; each part's finished cycles.
    Network {
        cells: [u32; PLACES],
        used: [u8; QUEUES],
        flag: [bool; QUEUES],
        held: [u32; NODES],
        count: [u32; PARTS],
    }
    /// What opening gives; refused, plan and network are zeros.
    Opened {
        answer: u32,
        place: usize,
        plan: Plan,
        network: Network,
    }
    /// What a drain gives.
    Drained {
        answer: u32,
        value: u32,
    }
    /// What a question gives.
    Told {
        answer: u32,
        value: u32,
    }
    /// What a run gives.
    Ran {
        answer: u32,
        rounds: usize,
        firings: usize,
    }
    /// What an order gives: feeds, drains and firings done.
    Played {
        answer: u32,
        feeds: usize,
        drains: usize,
        firings: usize,
    }
    /// An action of an order: feed (0), drain (1) or fire (2). Only a feed's value counts.
    Action {
        kind: u32,
        index: u32,
        value: u32,
    }
}

/// The library's own functions. A slice is its pointer and then its length.
pub mod raw {
    use super::*;

    extern "C" {
        pub fn cwazi_read_net(sheet: *const u8, sheet_length: usize) -> NetRead;
        pub fn cwazi_write_net(net: *const Netlist, image: *mut u8, image_length: usize) -> Wrote;
        pub fn cwazi_read_cut(net: *const Netlist, sheet: *const u8, sheet_length: usize) -> CutRead;
        pub fn cwazi_write_cut(net: *const Netlist, cut: *const Cut, image: *mut u8, image_length: usize) -> Wrote;
        pub fn cwazi_label(net: *const u8, net_length: usize, cut: *const u8, cut_length: usize, node: usize) -> Spot;
        pub fn cwazi_first_registers(net: *const Netlist, regs: *mut [u32; 1024]);
        pub fn cwazi_step(
            net: *const Netlist,
            regs: *mut [u32; 1024],
            ins: *const u32,
            ins_length: usize,
            outs: *mut u32,
            outs_length: usize,
        ) -> u32;
        pub fn cwazi_steps(
            net: *const Netlist,
            regs: *mut [u32; 1024],
            cycles: u32,
            ins: *const u32,
            ins_length: usize,
            outs: *mut u32,
            outs_length: usize,
        ) -> u32;
        pub fn cwazi_open(net: *const u8, net_length: usize, cut: *const u8, cut_length: usize, limit: u32) -> Opened;
        pub fn cwazi_feed(plan: *const Plan, network: *mut Network, input: u32, value: u32) -> u32;
        pub fn cwazi_drain(plan: *const Plan, network: *mut Network, output: u32) -> Drained;
        pub fn cwazi_tokens(plan: *const Plan, network: *const Network, queue: u32) -> Told;
        pub fn cwazi_finished(plan: *const Plan, network: *const Network, part: u32) -> Told;
        pub fn cwazi_fire(plan: *const Plan, network: *mut Network, rule: u32) -> u32;
        pub fn cwazi_ready(plan: *const Plan, network: *const Network, rule: u32) -> u32;
        pub fn cwazi_round(plan: *const Plan, network: *mut Network) -> usize;
        pub fn cwazi_run(plan: *const Plan, network: *mut Network, rounds: u32) -> Ran;
        pub fn cwazi_order(
            plan: *const Plan,
            network: *mut Network,
            kinds: *const u32,
            kinds_length: usize,
            indexes: *const u32,
            indexes_length: usize,
            values: *const u32,
            values_length: usize,
            drained: *mut u32,
            drained_length: usize,
        ) -> Played;
        pub fn cwazi_actions(
            plan: *const Plan,
            network: *mut Network,
            actions: *const Action,
            actions_length: usize,
            drained: *mut u32,
            drained_length: usize,
        ) -> Played;
    }
}

use raw::*;

/// Reads a net sheet: 0 to 6.
pub fn read_net(sheet: &[u8]) -> Box<NetRead> {
    Box::write(Box::new_uninit(), unsafe { cwazi_read_net(sheet.as_ptr(), sheet.len()) })
}

/// Writes a netlist's sheet to the front of the lent image: 0, 3 to 6 or 16.
pub fn write_net(net: &Netlist, image: &mut [u8]) -> Wrote {
    unsafe { cwazi_write_net(net, image.as_mut_ptr(), image.len()) }
}

/// Reads a cut sheet for a netlist that was read: 0, 7 to 11.
pub fn read_cut(net: &Netlist, sheet: &[u8]) -> Box<CutRead> {
    Box::write(Box::new_uninit(), unsafe { cwazi_read_cut(net, sheet.as_ptr(), sheet.len()) })
}

/// Writes a cut's sheet to the front of the lent image: 0, 7 to 11 or 16.
pub fn write_cut(net: &Netlist, cut: &Cut, image: &mut [u8]) -> Wrote {
    unsafe { cwazi_write_cut(net, cut, image.as_mut_ptr(), image.len()) }
}

/// Where a node's label stands; with none, the empty part at the net sheet's end.
pub fn label_spot(net: &[u8], cut: &[u8], node: usize) -> Spot {
    unsafe { cwazi_label(net.as_ptr(), net.len(), cut.as_ptr(), cut.len(), node) }
}

/// A node's label, as the part of the sheet that holds it.
pub fn label<'a>(net: &'a [u8], cut: &'a [u8], node: usize) -> &'a [u8] {
    let spot = label_spot(net, cut, node);
    let sheet = if spot.cut { cut } else { net };
    &sheet[spot.from..spot.from + spot.length]
}

/// The registers of cycle 1.
pub fn first_registers(net: &Netlist, regs: &mut [u32; NODES]) {
    unsafe { cwazi_first_registers(net, regs) }
}

/// One cycle: a value for each IN, one for each output: 0, 12, 13 or 16.
pub fn step(net: &Netlist, regs: &mut [u32; NODES], ins: &[u32], outs: &mut [u32]) -> u32 {
    unsafe { cwazi_step(net, regs, ins.as_ptr(), ins.len(), outs.as_mut_ptr(), outs.len()) }
}

/// So many cycles in one call: 0, 12, 13 or 16.
pub fn steps(net: &Netlist, regs: &mut [u32; NODES], cycles: u32, ins: &[u32], outs: &mut [u32]) -> u32 {
    unsafe { cwazi_steps(net, regs, cycles, ins.as_ptr(), ins.len(), outs.as_mut_ptr(), outs.len()) }
}

/// Opens two sheets for a cycle limit: 0 to 11 or 15.
pub fn open(net: &[u8], cut: &[u8], limit: u32) -> Box<Opened> {
    Box::write(Box::new_uninit(), unsafe { cwazi_open(net.as_ptr(), net.len(), cut.as_ptr(), cut.len(), limit) })
}

/// Puts a token on an input queue with room: 0, 12, 13 or 14.
pub fn feed(plan: &Plan, network: &mut Network, input: u32, value: u32) -> u32 {
    unsafe { cwazi_feed(plan, network, input, value) }
}

/// Takes the oldest token of an output queue that has one: 0, 12 or 14.
pub fn drain(plan: &Plan, network: &mut Network, output: u32) -> Drained {
    unsafe { cwazi_drain(plan, network, output) }
}

/// How many tokens a queue has: 0 or 12.
pub fn tokens(plan: &Plan, network: &Network, queue: u32) -> Told {
    unsafe { cwazi_tokens(plan, network, queue) }
}

/// How many cycles a part has finished: 0 or 12.
pub fn finished(plan: &Plan, network: &Network, part: u32) -> Told {
    unsafe { cwazi_finished(plan, network, part) }
}

/// Fires a rule that is ready: 0, 12 or 14.
pub fn fire(plan: &Plan, network: &mut Network, rule: u32) -> u32 {
    unsafe { cwazi_fire(plan, network, rule) }
}

/// What firing a rule would answer; nothing changes.
pub fn ready(plan: &Plan, network: &Network, rule: u32) -> u32 {
    unsafe { cwazi_ready(plan, network, rule) }
}

/// A round: tries each rule once by number, and counts firings.
pub fn round(plan: &Plan, network: &mut Network) -> usize {
    unsafe { cwazi_round(plan, network) }
}

/// So many rounds, or up to one that fires none: 0 or 12.
pub fn run(plan: &Plan, network: &mut Network, rounds: u32) -> Ran {
    unsafe { cwazi_run(plan, network, rounds) }
}

/// An order of feeds (0), drains (1) and firings (2); drained values go to the front of the lent list: 0, 12 or 16.
pub fn order(
    plan: &Plan,
    network: &mut Network,
    kinds: &[u32],
    indexes: &[u32],
    values: &[u32],
    drained: &mut [u32],
) -> Played {
    unsafe {
        cwazi_order(
            plan,
            network,
            kinds.as_ptr(),
            kinds.len(),
            indexes.as_ptr(),
            indexes.len(),
            values.as_ptr(),
            values.len(),
            drained.as_mut_ptr(),
            drained.len(),
        )
    }
}

/// The same order as one list of actions: 0 or 16.
pub fn actions(plan: &Plan, network: &mut Network, actions: &[Action], drained: &mut [u32]) -> Played {
    unsafe { cwazi_actions(plan, network, actions.as_ptr(), actions.len(), drained.as_mut_ptr(), drained.len()) }
}
