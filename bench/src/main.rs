// Measures the proved library against the twin: the same inputs, one process, the two in turn, the median of several runs, and ratios.
// Where both give something it is compared, so that the same work is measured.

mod drawings;

use drawings::{sheets, Numbers};
use std::hint::black_box;

const RUNS: usize = 15;

/// The time that this thread has had on a processor, in nanoseconds: what else the machine does counts less than in the time of a clock on the wall.
fn now() -> u64 {
    #[repr(C)]
    struct Time {
        seconds: i64,
        nanoseconds: i64,
    }
    extern "C" {
        fn clock_gettime(clock: i32, time: *mut Time) -> i32;
    }
    let mut time = Time { seconds: 0, nanoseconds: 0 };
    // 3 is the clock of the thread (Linux).
    let answer = unsafe { clock_gettime(3, &mut time) };
    assert_eq!(answer, 0);
    time.seconds as u64 * 1_000_000_000 + time.nanoseconds as u64
}

/// The median of several runs of each, in nanoseconds for one call; each run repeats its call until it has taken a few milliseconds.
fn both(mut ours: impl FnMut(), mut twin: impl FnMut()) -> (f64, f64) {
    fn times(f: &mut impl FnMut()) -> u32 {
        let mut n = 1;
        loop {
            let began = now();
            for _ in 0..n {
                f();
            }
            if now() - began > 3_000_000 || n > 1 << 24 {
                return n;
            }
            n *= 2;
        }
    }
    fn one(f: &mut impl FnMut(), n: u32) -> f64 {
        let began = now();
        for _ in 0..n {
            f();
        }
        (now() - began) as f64 / f64::from(n)
    }
    let (n, m) = (times(&mut ours), times(&mut twin));
    let (mut a, mut b) = (Vec::new(), Vec::new());
    for _ in 0..RUNS {
        a.push(one(&mut ours, n));
        b.push(one(&mut twin, m));
    }
    a.sort_by(f64::total_cmp);
    b.sort_by(f64::total_cmp);
    (a[RUNS / 2], b[RUNS / 2])
}

fn row(what: &str, (ours, twin): (f64, f64), per: f64, unit: &str, goal: &str) {
    println!("| {what} | {:.1} | {:.1} | {:.2} | {goal} | {unit} |", ours / per, twin / per, ours / twin);
}

fn read_and_write(nodes: usize) {
    let s = sheets(nodes, if nodes < 64 { 1 } else { 32.min(nodes / 16) }, true);
    let read = boards::read_net(&s.net);
    let net = twin::read_net(&s.net).unwrap();
    assert_eq!(read.answer, 0);
    let mut image = vec![0; 20_000];
    let mut kept = twin::read_net(&s.net).unwrap();
    row(&format!("read_net, {nodes} nodes"), both(|| drop(black_box(boards::read_net(&s.net))), || { black_box(twin::read_net_into(&mut kept, &s.net)).unwrap() }), 1000.0, "µs", "");
    let mut other = image.clone();
    row(&format!("write_net, {nodes} nodes"), both(|| { black_box(boards::write_net(&read.net, &mut image)); }, || { black_box(twin::write_net(&net, &mut other)); }), 1000.0, "µs", "");
    assert!(image[..s.net.len()] == s.net[..] && other[..s.net.len()] == s.net[..]);
    let cut = boards::read_cut(&read.net, &s.cut);
    assert_eq!((cut.answer, cut.place), (0, 0));
    let (mut kept_cut, mut kept_queues) = twin::read_cut(&net, &s.cut).unwrap();
    row(&format!("read_cut, {nodes} nodes"), both(|| drop(black_box(boards::read_cut(&read.net, &s.cut))), || { twin::read_cut_into(&net, &mut kept_cut, &mut kept_queues, &s.cut).unwrap() }), 1000.0, "µs", "");
    row(&format!("write_cut, {nodes} nodes"), both(|| { black_box(boards::write_cut(&read.net, &cut.cut, &mut image)); }, || { black_box(twin::write_cut(&net, &kept_cut, &mut other)); }), 1000.0, "µs", "");
    assert!(image[..s.cut.len()] == s.cut[..] && other[..s.cut.len()] == s.cut[..]);
}

fn stepping(nodes: usize) {
    let s = sheets(nodes, 1, false);
    let net = boards::read_net(&s.net).net.clone();
    let mut stepper = twin::Stepper::new(&twin::read_net(&s.net).unwrap());
    let mut numbers = Numbers(7);
    let cycles = 1000;
    let ins: Vec<u32> = (0..cycles).map(|_| numbers.below(65_536) as u32).collect();
    let (mut outs, mut others) = (vec![0; cycles], vec![0; cycles]);
    let mut regs = [0; 1024];
    boards::first_registers(&net, &mut regs);
    assert_eq!(boards::steps(&net, &mut regs, cycles as u32, &ins, &mut outs), stepper.steps(cycles as u64, &ins, &mut others));
    assert_eq!(outs, others);
    let pair = both(|| { black_box(boards::steps(&net, &mut regs, cycles as u32, &ins, &mut outs)); }, || { black_box(stepper.steps(cycles as u64, &ins, &mut others)); });
    row(&format!("steps, {nodes} nodes"), pair, cycles as f64, "ns a cycle", "1.2");
}

fn opening(nodes: usize, parts: usize) {
    let s = sheets(nodes, parts, true);
    assert_eq!(boards::open(&s.net, &s.cut, 4_000_000_000).answer, 0);
    let mut kept = twin::Network::open(&s.net, &s.cut, 4_000_000_000).unwrap();
    let pair = both(|| drop(black_box(boards::open(&s.net, &s.cut, 4_000_000_000))), || { black_box(kept.reopen(&s.net, &s.cut, 4_000_000_000)).unwrap() });
    row(&format!("open, {nodes} nodes in {parts} parts"), pair, 1000.0, "µs", "1.5");
}

fn running(nodes: usize, parts: usize) {
    let s = sheets(nodes, parts, false);
    let mut o = boards::open(&s.net, &s.cut, 4_000_000_000);
    let mut t = twin::Network::open(&s.net, &s.cut, 4_000_000_000).unwrap();
    let (inputs, outputs) = (o.plan.inputs as u32, o.plan.outputs as u32);
    let boards::Opened { plan, network, .. } = &mut *o;
    let mut sums = (0u64, 0u64);
    let mut numbers = Numbers(5);
    let fed: Vec<u32> = (0..4096).map(|_| numbers.below(65_536) as u32).collect();
    let (mut at, mut other) = (0, 0);
    // each turn: four tokens for every input, a run until nothing fires, and all outputs drained
    let pair = both(
        || {
            for _ in 0..4 {
                for i in 0..inputs {
                    at = (at + 1) % fed.len();
                    boards::feed(plan, network, i, fed[at]);
                }
            }
            sums.0 = sums.0.wrapping_add(boards::run(plan, network, 65_535).firings as u64);
            for j in 0..outputs {
                loop {
                    let d = boards::drain(plan, network, j);
                    if d.answer != 0 {
                        break;
                    }
                    black_box(d.value);
                }
            }
        },
        || {
            for _ in 0..4 {
                for i in 0..inputs {
                    other = (other + 1) % fed.len();
                    t.feed(i as usize, fed[other]);
                }
            }
            sums.1 = sums.1.wrapping_add(u64::from(t.run(65_535).2));
            for j in 0..outputs as usize {
                loop {
                    let (answer, value) = t.drain(j);
                    if answer != 0 {
                        break;
                    }
                    black_box(value);
                }
            }
        },
    );
    assert!(sums.0 > 0 && sums.1 > 0);
    row(&format!("fed, run and drained, {nodes} nodes in {parts} parts, 4 cycles"), pair, 1000.0, "µs", "1.5");
}

fn playing(nodes: usize, parts: usize) {
    let s = sheets(nodes, parts, false);
    let mut o = boards::open(&s.net, &s.cut, 4_000_000_000);
    let mut t = twin::Network::open(&s.net, &s.cut, 4_000_000_000).unwrap();
    let mut numbers = Numbers(11);
    let n = 10_000;
    let (inputs, outputs, rules) = (o.plan.inputs, o.plan.outputs, o.plan.rules);
    let (mut kinds, mut indexes, mut values) = (vec![0; n], vec![0; n], vec![0; n]);
    for i in 0..n {
        kinds[i] = [0, 1, 2, 2][numbers.below(4)];
        indexes[i] = numbers.below([inputs, outputs, rules][kinds[i] as usize]) as u32;
        values[i] = numbers.below(65_536) as u32;
    }
    let (mut drained, mut others) = (vec![0; n], vec![0; n]);
    let boards::Opened { plan, network, .. } = &mut *o;
    let pair = both(|| { black_box(boards::order(plan, network, &kinds, &indexes, &values, &mut drained)); }, || { black_box(t.order(&kinds, &indexes, &values, &mut others)); });
    row(&format!("order of 10,000 actions, {nodes} nodes in {parts} parts"), pair, n as f64, "ns an action", "1.5");
}

fn calls() {
    let s = sheets(1024, 8, false);
    let mut o = boards::open(&s.net, &s.cut, 4_000_000_000);
    let mut t = twin::Network::open(&s.net, &s.cut, 4_000_000_000).unwrap();
    let boards::Opened { plan, network, .. } = &mut *o;
    row("feed (full queue)", both(|| { black_box(boards::feed(plan, network, black_box(3), 9)); }, || { black_box(t.feed(black_box(3), 9)); }), 1.0, "ns", "under 20 ns");
    row("drain (empty queue)", both(|| { black_box(boards::drain(plan, network, black_box(3))); }, || { black_box(t.drain(black_box(3))); }), 1.0, "ns", "under 20 ns");
    // a part that only passes its input on: feed, and a drain of what its output has
    let (net, cut) = pass();
    let mut o = boards::open(&net, &cut, 4_000_000_000);
    let mut t = twin::Network::open(&net, &cut, 4_000_000_000).unwrap();
    assert_eq!(o.answer, 0);
    let boards::Opened { plan, network, .. } = &mut *o;
    let round = both(|| { black_box(boards::round(plan, network)); }, || { black_box(t.round()); });
    row("round of a network of one node, nothing ready", round, 1.0, "ns", "");
    let pair = both(
        || {
            boards::feed(plan, network, 0, 5);
            boards::round(plan, network);
            black_box(boards::drain(plan, network, 0));
        },
        || {
            t.feed(0, 5);
            t.round();
            black_box(t.drain(0));
        },
    );
    row("feed, round and drain of a network of one node", pair, 1.0, "ns", "");
}

/// The sheets of one IN that is an output.
fn pass() -> (Vec<u8>, Vec<u8>) {
    let mut net = vec![0, 16, 0, 0, 0, 0, 0, 0, 0, 0, 0, 0, 0, 0];
    net.extend([0, 0, 0, 0, 2, 0, 0, 0, 14, 0, 0, 0, 1, 0]);
    net.extend(b"SN");
    let mut cut = vec![0, 4, 4];
    cut.extend([0, 0, 0, 0, 2, 0, 0, 0, 3, 0, 0, 0, 1, 0]);
    cut.extend(b"SC");
    (net, cut)
}

fn main() {
    println!("| what | library | twin | ratio | to be reached | unit |");
    println!("|---|---|---|---|---|---|");
    read_and_write(1024);
    for nodes in [64, 256, 1024] {
        stepping(nodes);
    }
    for (nodes, parts) in [(64, 4), (256, 16), (1024, 1), (1024, 8), (1024, 32)] {
        opening(nodes, parts);
    }
    for (nodes, parts) in [(64, 1), (256, 1), (1024, 1), (1024, 8), (1024, 32)] {
        running(nodes, parts);
    }
    for (nodes, parts) in [(64, 4), (256, 8), (1024, 8), (1024, 32)] {
        playing(nodes, parts);
    }
    calls();
}
