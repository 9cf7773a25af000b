// How long rounds take: a drawing of 1,024 nodes in 32 parts that fires every rule in every round.

use std::time::Instant;
use twin::Network;

fn trailer(sheet: &mut Vec<u8>, distances: [usize; 3], mark: &[u8]) {
    distances.iter().for_each(|d| sheet.extend((*d as u32).to_le_bytes()));
    sheet.extend([1, 0]);
    sheet.extend(mark);
}

/// 64 REGs, two for each part; then ADDs, XORs and other codes over earlier nodes of their own part, and each 32nd of another one. Each
/// REG takes the last node of its part. Nothing is fed and nothing drained, so that no rule ever waits.
fn drawing() -> (Vec<u8>, Vec<u8>) {
    let (mut net, mut part, mut seed) = (Vec::new(), Vec::new(), 9u32);
    let mut takes = Vec::new();
    for n in 0..1024u32 {
        seed = seed.wrapping_mul(1_664_525).wrapping_add(1_013_904_223);
        let (p, row) = (n % 32, n / 32);
        let home = |r: u32| (r % row.max(1)) * 32 + p;
        let (code, a, b, k) = if row < 2 {
            (0x02u8, 31 * 32 + p, 0, seed)
        } else {
            let code = [0x23u8, 0x22, 0x24, 0x20, 0x21, 0x40, 0x41, 0x23][(seed >> 24) as usize % 8];
            let a = if row % 4 == 3 { (row - 1) * 32 + (p + 1) % 32 } else { home(seed >> 8) };
            (code, a, home(seed >> 16), 0)
        };
        net.extend([code, 32]);
        net.extend((a as u16).to_le_bytes());
        net.extend((b as u16).to_le_bytes());
        net.extend([0, 0]);
        net.extend(k.to_le_bytes());
        part.push(p as u8);
        if a % 32 != p {
            takes.push(a);
        }
    }
    let (records, queues) = (net.len(), takes.len());
    trailer(&mut net, [0, 0, records], b"SN");
    let mut cut = part;
    cut.extend(vec![2; queues]);
    trailer(&mut cut, [0, queues, queues + 1024], b"SC");
    (net, cut)
}

/// The least of several times, in microseconds.
fn least(times: usize, mut work: impl FnMut()) -> f64 {
    let once = |work: &mut dyn FnMut()| {
        let begun = Instant::now();
        work();
        begun.elapsed().as_secs_f64() * 1e6
    };
    (0..times).map(|_| once(&mut work)).fold(f64::INFINITY, f64::min)
}

fn main() {
    let (net, cut) = drawing();
    let mut network = Network::open(&net, &cut, 4_000_000_000).unwrap_or_else(|r| panic!("{r:?}"));
    println!("{} nodes, {} parts, {} queues, {} rules", network.nodes(), network.parts(), network.queues(), network.rules());
    let opening = least(200, || drop(std::hint::black_box(Network::open(&net, &cut, 4_000_000_000))));
    let again = least(200, || network.reopen(&net, &cut, 4_000_000_000).unwrap_or_else(|r| panic!("{r:?}")));
    println!("an opening: {opening:.1} us, in an earlier one's place: {again:.1} us");
    let rules = network.rules() as u32;
    let rounds = least(50, || assert_eq!(network.run(1_000), (0, 1_000, 1_000 * rules)));
    println!("1,000 rounds, {} firings: {rounds:.0} us", 1_000 * rules);
    let net = twin::read_net(&net).unwrap();
    let mut stepper = twin::Stepper::new(&net);
    let cycles = least(50, || assert_eq!(stepper.steps(1_000, &[], &mut []), 0));
    println!("1,000 cycles of the plain stepper: {cycles:.0} us");
}
