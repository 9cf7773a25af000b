// The program `trace`: opens net.sheet and cut.sheet and plays commands from standard input (outline, "The bench example, whole").
#![forbid(unsafe_code)]

use std::fs::File;
use std::io::{stdin, stdout, Read, Write};
use twin::Network;

const LARGEST: usize = 32_768;
/// The longest good line, `f 4294967295 4294967295`.
const LONGEST: usize = 23;

/// A file that is missing, can't be read or is over 32,768 bytes counts as empty.
fn sheet(name: &str) -> Vec<u8> {
    let mut bytes = Vec::new();
    let read = File::open(name).and_then(|f| f.take(LARGEST as u64 + 1).read_to_end(&mut bytes));
    if read.is_err() || bytes.len() > LARGEST {
        bytes.clear();
    }
    bytes
}

/// A decimal below 2^32 without leading zeros.
fn number(word: &[u8]) -> Option<u32> {
    if word.is_empty() || word.len() > 10 || (word[0] == b'0' && word.len() > 1) || !word.iter().all(u8::is_ascii_digit) {
        return None;
    }
    u32::try_from(word.iter().fold(0u64, |n, d| 10 * n + (d - b'0') as u64)).ok()
}

fn line(network: &mut Network, line: &[u8], out: &mut Vec<u8>) {
    let answered = match line {
        [b'a'] => Some((0, Some(network.round()))),
        [b'f', b' ', rest @ ..] => rest.iter().position(|&b| b == b' ').and_then(|at| {
            let (i, v) = (number(&rest[..at])?, number(&rest[at + 1..])?);
            Some((network.feed(i as usize, v), None))
        }),
        [b'd', b' ', rest @ ..] => number(rest).map(|j| {
            let (answer, v) = network.drain(j as usize);
            (answer, (answer == 0).then_some(v))
        }),
        [b'r', b' ', rest @ ..] => number(rest).map(|k| (network.fire(k as usize), None)),
        _ => None,
    };
    let _ = match answered {
        Some((answer, Some(more))) => writeln!(out, "{answer} {more}"),
        Some((answer, None)) => writeln!(out, "{answer}"),
        None => writeln!(out, "17"),
    };
}

fn main() {
    let (net, cut) = (sheet("net.sheet"), sheet("cut.sheet"));
    let mut network = match Network::open(&net, &cut, 4_000_000_000) {
        Ok(network) => network,
        Err(refusal) => {
            println!("open {} {}", refusal.answer, refusal.place);
            return;
        }
    };
    let (mut input, mut output) = (stdin().lock(), stdout().lock());
    let mut out = Vec::new();
    let _ = writeln!(out, "open 0 {} {} {} {}", network.nodes(), network.parts(), network.queues(), network.rules());
    let mut buffer = [0u8; 65_536];
    // The line so far; of a longer one than any good line, one byte more is kept, which makes it a bad one.
    let (mut kept, mut len) = ([0u8; LONGEST + 1], 0);
    let mut begun = false;
    loop {
        if output.write_all(&out).and_then(|_| output.flush()).is_err() {
            return;
        }
        out.clear();
        let count = match input.read(&mut buffer) {
            Ok(0) => break,
            Ok(count) => count,
            Err(e) if e.kind() == std::io::ErrorKind::Interrupted => continue,
            Err(_) => break,
        };
        for &b in &buffer[..count] {
            if b == b'\n' {
                line(&mut network, &kept[..len], &mut out);
                (len, begun) = (0, false);
            } else {
                begun = true;
                if len <= LONGEST {
                    kept[len] = b;
                    len += 1;
                }
            }
        }
    }
    if begun {
        line(&mut network, &kept[..len], &mut out);
        let _ = output.write_all(&out);
    }
}
