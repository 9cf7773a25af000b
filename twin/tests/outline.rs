// The outline's own examples and limits: marked codes, the bench, its trace, its labels and its sheets.

mod common;
use common::*;
use std::io::Write;
use std::process::{Command, Stdio};
use twin::sheets::{ADD, CAT, IN, LTU, NEG, NOT, PAR, REG, SHL, SHR, SLICE, SUB};
use twin::*;

/// One node over INs of the given widths and values.
fn alone(widths: &[u8], values: &[u32], node: Record) -> u32 {
    let mut nodes: Vec<Record> = widths.iter().map(|&w| rec(IN, w, 0, 0, 0, 0)).collect();
    nodes.push(node);
    let net = read_net(&net_sheet(&nodes, &[widths.len() as u16], &[])).unwrap();
    let mut out = [0];
    assert_eq!(Stepper::new(&net).step(values, &mut out), 0);
    out[0]
}

#[test]
fn marked_codes() {
    assert_eq!(alone(&[8, 8], &[250, 15], rec(ADD, 8, 0, 1, 0, 0)), 9);
    assert_eq!(alone(&[4, 4], &[3, 5], rec(SUB, 4, 0, 1, 0, 0)), 14);
    assert_eq!(alone(&[8], &[0], rec(NEG, 8, 0, 0, 0, 0)), 0);
    assert_eq!(alone(&[8], &[1], rec(NEG, 8, 0, 0, 0, 0)), 255);
    assert_eq!(alone(&[3], &[7], rec(PAR, 1, 0, 0, 0, 0)), 1);
    assert_eq!(alone(&[8, 5], &[3, 7], rec(SHL, 8, 0, 1, 0, 0)), 128);
    assert_eq!(alone(&[8, 6], &[200, 32], rec(SHR, 8, 0, 1, 0, 0)), 200);
    assert_eq!(alone(&[3, 4], &[5, 2], rec(CAT, 7, 0, 1, 0, 0)), 82);
    assert_eq!(alone(&[8], &[182], rec(SLICE, 3, 0, 0, 0, 2)), 5);
    assert_eq!(alone(&[3, 3], &[7, 7], rec(LTU, 1, 0, 1, 0, 0)), 0);
}

#[test]
fn bench_steps() {
    let net = read_net(&bench_net()).unwrap();
    let mut stepper = Stepper::new(&net);
    let mut out = [7; 7];
    assert_eq!(stepper.steps(3, &[10, 250, 1], &mut out), 0);
    assert_eq!(out, [15, 250, 9, 240, 10, 246, 7]);
    assert_eq!(stepper.steps(2, &[1], &mut out), 12);
    assert_eq!(stepper.steps(2, &[1, 256], &mut out[..0]), 13);
    assert_eq!(stepper.steps(2, &[1, 2], &mut out[..3]), 16);
    assert_eq!(out, [15, 250, 9, 240, 10, 246, 7]);
}

#[test]
fn bench_sheets() {
    let sheet = bench_net();
    assert_eq!(sheet.len(), 74);
    let net = read_net(&sheet).unwrap();
    let mut buffer = [9; 80];
    assert_eq!(write_net(&net, &mut buffer), Written { answer: 0, place: 0, len: 74 });
    assert_eq!((&buffer[..74], &buffer[74..]), (&sheet[..], &[9; 6][..]));
    assert_eq!(write_net(&net, &mut buffer[..73]), Written { answer: 16, place: 0, len: 0 });
    let (cut, queues) = read_cut(&net, &BENCH_CUT).unwrap();
    assert_eq!((queues.parts, queues.count, queues.inputs, queues.channels, queues.outputs), (2, 5, 1, 2, 2));
    assert_eq!(write_cut(&net, &cut, &mut buffer), Written { answer: 0, place: 0, len: 25 });
    assert_eq!(buffer[..25], BENCH_CUT);
    assert_eq!(label(&sheet, &BENCH_CUT, 2), b"sum");
    assert_eq!(label_place(&sheet, &BENCH_CUT, 2), Found { sheet: Sheet::Net, start: 55, len: 3 });
    assert_eq!(label_place(&sheet, &BENCH_CUT, 1), Found { sheet: Sheet::Net, start: 74, len: 0 });
    let labelled = cut_sheet(&[0, 1, 0, 1], &[1; 5], &[2, 0, 2, b'h', b'i']);
    assert_eq!(label(&sheet, &labelled, 2), b"hi");
    assert_eq!(label_place(&sheet, &labelled, 2), Found { sheet: Sheet::Cut, start: 12, len: 2 });
    assert_eq!(label_place(&sheet, &labelled[1..], 2), Found { sheet: Sheet::Net, start: 74, len: 0 });
}

#[test]
fn bench_rounds() {
    let mut n = Network::open(&bench_net(), &BENCH_CUT, 4_000_000_000).unwrap();
    let ready: Vec<usize> = (0..n.rules()).filter(|&k| n.ready(k) == 0).collect();
    assert_eq!(ready, [0, 3]);
    assert_eq!(n.feed(0, 10), 0);
    assert_eq!((n.round(), n.round(), n.round()), (6, 1, 0));
    let mut n = Network::open(&bench_net(), &BENCH_CUT, 1).unwrap();
    assert_eq!((n.feed(1, 0), n.feed(0, 256), n.feed(0, 10), n.feed(0, 10)), (12, 13, 0, 14));
    assert_eq!(n.run(65_536), (12, 0, 0));
    assert_eq!(n.run(65_535), (0, 2, 6));
    let mut lent = [5; 3];
    assert_eq!(n.order(&[1, 1], &[0], &[0, 0], &mut lent), (12, 0, 0, 0));
    assert_eq!(n.order(&[1, 1, 9], &[0, 0, 0], &[0, 0, 0], &mut lent[..1]), (16, 0, 0, 0));
    assert_eq!(n.order(&[1, 1, 9, 0], &[0, 0, 0, 0], &[0, 0, 0, 1], &mut lent), (0, 1, 1, 0));
    assert_eq!(lent, [15, 5, 5]);
}

fn trace(name: &str, sheets: Option<(&[u8], &[u8])>, input: &[u8]) -> String {
    let folder = std::env::temp_dir().join(format!("twin-trace-{}-{name}", std::process::id()));
    std::fs::create_dir_all(&folder).unwrap();
    if let Some((net, cut)) = sheets {
        std::fs::write(folder.join("net.sheet"), net).unwrap();
        std::fs::write(folder.join("cut.sheet"), cut).unwrap();
    }
    let mut child = Command::new(env!("CARGO_BIN_EXE_trace"))
        .current_dir(&folder)
        .stdin(Stdio::piped())
        .stdout(Stdio::piped())
        .spawn()
        .unwrap();
    let _ = child.stdin.take().unwrap().write_all(input);
    let out = child.wait_with_output().unwrap();
    std::fs::remove_dir_all(&folder).unwrap();
    String::from_utf8(out.stdout).unwrap()
}

#[test]
fn traces() {
    let net = bench_net();
    let good = Some((&net[..], &BENCH_CUT[..]));
    let six = "open 0 4 2 5 6\n0\n0 6\n0 15\n0 250\n14\n";
    assert_eq!(trace("bench", good, b"f 0 10\na\nd 0\nd 1\nd 1\n"), six);
    assert_eq!(trace("no-end", good, b"f 0 10\na\nd 0\nd 1\nd 1"), six);
    assert_eq!(trace("none", good, b""), "open 0 4 2 5 6\n");
    assert_eq!(trace("missing", None, b"a\n"), "open 1 0\n");
    assert_eq!(trace("long", Some((&[0; 32_769], &BENCH_CUT)), b"a\n"), "open 1 0\n");
    assert_eq!(trace("32768", Some((&[0; 32_768], &BENCH_CUT)), b"a\n"), "open 2 0\n");
    let bad = b"\nA\na \n a\nf  0 1\nf 0 01\nf 0\nf 0 1 \nd -1\nd +1\nd 4294967296\nr\tk\na\r\nf 99 4294967296\n";
    assert_eq!(trace("bad", good, bad), format!("open 0 4 2 5 6\n{}", "17\n".repeat(14)));
    let long = [&[b'1'; 100_000][..], b"\nf 4294967295 4294967295\nr 6\nr 0\nd 4294967295\nf 0 256\nf 4294967295 42949672950"].concat();
    assert_eq!(trace("longest", good, &long), "open 0 4 2 5 6\n17\n12\n12\n0\n12\n13\n17\n");
}

#[test]
fn limits() {
    let refusal = |answer, place| Some(Refusal { answer, place });
    let ins = |count: usize, w: u8| net_sheet(&vec![rec(IN, w, 0, 0, 0, 0); count], &[], &[]);
    assert_eq!(read_net(&ins(1024, 1)).err(), None);
    assert_eq!(read_net(&ins(1025, 1)).err(), refusal(3, 0));
    assert_eq!(read_net(&ins(0, 1)).err(), refusal(3, 0));
    assert_eq!(read_net(&ins(1, 0)).err(), refusal(4, 0));
    assert_eq!(read_net(&ins(1, 32)).err(), None);
    assert_eq!(read_net(&ins(1, 33)).err(), refusal(4, 0));
    let net = bench_net();
    for (depth, want) in [(0, refusal(9, 4)), (1, None), (16, None), (17, refusal(9, 4))] {
        let cut = cut_sheet(&[0, 1, 0, 1], &[1, 1, 1, 1, depth], &[]);
        assert_eq!(Network::open(&net, &cut, 1).err(), want);
    }
    assert_eq!(Network::open(&net, &BENCH_CUT, 0).err(), refusal(15, 0));
    assert_eq!(Network::open(&net, &BENCH_CUT, 4_000_000_001).err(), refusal(15, 0));
    assert_eq!(Network::open(&net, &BENCH_CUT, 4_000_000_000).err(), None);
    assert_eq!(Network::open(&net[..15], &BENCH_CUT, 0).err(), refusal(1, 0));
    assert_eq!(Network::open(&net, &BENCH_CUT[..15], 0).err(), refusal(7, 0));
    assert_eq!(Network::open(&net, &cut_sheet(&[0, 1, 0], &[1; 5], &[]), 1).err(), refusal(8, 0));
    assert_eq!(Network::open(&net, &cut_sheet(&[0, 1, 0, 32], &[1; 5], &[]), 1).err(), refusal(8, 3));
    assert_eq!(Network::open(&net, &cut_sheet(&[0, 1, 0, 1], &[1; 4], &[]), 1).err(), refusal(9, 0));
    assert_eq!(Network::open(&net, &cut_sheet(&[0, 2, 0, 2], &[1; 5], &[]), 1).err(), refusal(10, 1));
    assert_eq!(Network::open(&net, &cut_sheet(&[0, 1, 0, 1], &[1; 5], &[2, 0, 3, 65]), 1).err(), refusal(11, 0));
    // A field that the code doesn't use; a REG of a later node; an operand that isn't below its node.
    assert_eq!(read_net(&net_sheet(&[rec(IN, 1, 0, 0, 0, 0), rec(NOT, 1, 0, 1, 0, 0)], &[], &[])).err(), refusal(4, 1));
    assert_eq!(read_net(&net_sheet(&[rec(REG, 1, 1, 0, 0, 1), rec(IN, 1, 0, 0, 0, 0)], &[1], &[])).err(), None);
    assert_eq!(read_net(&net_sheet(&[rec(NOT, 1, 0, 0, 0, 0)], &[], &[])).err(), refusal(4, 0));
    assert_eq!(read_net(&net_sheet(&[rec(IN, 1, 0, 0, 0, 0)], &[0, 1], &[])).err(), refusal(5, 1));
    assert_eq!(read_net(&net_sheet(&[rec(IN, 1, 0, 0, 0, 0)], &[0], &[0, 0, 1, 65, 0])).err(), refusal(6, 1));
}

/// Sheets with a few bytes changed, put in or left out: an answer of the table, and what is read is written back the same.
#[test]
fn spoilt_sheets() {
    let mut chance = Chance(0x0F1E_2D3C_4B5A_6978);
    let (mut good, mut buffer) = (0, vec![0; 20_480]);
    for _ in 0..20_000 {
        let count = 1 + chance.below(8);
        let nodes = any_nodes(&mut chance, count, 2);
        let net = net_sheet(&nodes, &[chance.below(count) as u16], &[0, 0, 1, b'n']);
        let part: Vec<u8> = (0..count).map(|_| chance.below(2) as u8).collect();
        let depths = vec![1; 1 + chance.below(6)];
        let mut sheets = [net, cut_sheet(&part, &depths, &[0, 0, 1, b'c'])];
        for _ in 0..chance.below(3) {
            let sheet = &mut sheets[chance.below(2)];
            let (at, b) = (chance.below(sheet.len()), chance.next() as u8 >> chance.below(8));
            match chance.below(4) {
                0 => sheet.insert(at, b),
                1 => drop(sheet.remove(at)),
                _ => sheet[at] = b,
            }
        }
        let [net_bytes, cut_bytes] = &sheets;
        let opened = Network::open(net_bytes, cut_bytes, 1).map(|_| ()).err();
        let text = label(net_bytes, cut_bytes, 0);
        match read_net(net_bytes) {
            Err(r) => {
                assert!((1..=6).contains(&r.answer) && opened == Some(r) && text.is_empty());
            }
            Ok(net) => {
                let len = write_net(&net, &mut buffer).len;
                assert_eq!(buffer[..len], net_bytes[..]);
                match read_cut(&net, cut_bytes) {
                    Err(r) => assert!((7..=11).contains(&r.answer) && opened == Some(r) && text.is_empty()),
                    Ok((cut, _)) => {
                        let len = write_cut(&net, &cut, &mut buffer).len;
                        assert_eq!(buffer[..len], cut_bytes[..]);
                        assert_eq!(opened, None);
                        good += 1;
                    }
                }
            }
        }
    }
    assert!(good > 1_000, "{good} good ones");
}
