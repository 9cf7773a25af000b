// The program `trace`: one process for each case, against the twin's program in the same folder with the same input.

use crate::cases::{sheets_of, Sheets};
use crate::chance::Chance;
use crate::tally::Tally;
use crate::{hold, Same};
use std::fs;
use std::path::{Path, PathBuf};
use std::process::{Command, Stdio};

/// The two programs, and a folder of their own to run in.
pub struct Programs {
    pub trace: PathBuf,
    pub twin: PathBuf,
    pub folder: PathBuf,
}

const WRONG: [&[u8]; 44] = [
    b"", b" ", b"a ", b" a", b"aa", b"A", b"a\r", b"a 1", b"f", b"f ", b"f 0", b"f 0 ", b"f 0  1", b"f  0 1", b"f 0 1 ", b"f 0 1 2", b"f 00 1",
    b"f 0 01", b"f 0 4294967296", b"f 4294967296 0", b"f 99 42949672950", b"f 0 -1", b"f +0 1", b"F 0 1", b"d", b"d ", b"d 00", b"d 0 ", b"d 0 0",
    b"d -0", b"d\t0", b"r", b"r ", b"r 0 0", b"r 01", b"r 0x1", b"r 1.0", b"x", b"\0", b"a\0", b"f 0 1\r", b"\xff\xfe", b"d 99999999999999999999",
    b"r 18446744073709551616",
];

fn line(chance: &mut Chance, counts: [usize; 3]) -> Vec<u8> {
    let index = |chance: &mut Chance, count: usize| match chance.below(16) {
        0 => count as u32,
        1 => chance.of(&[u32::MAX, 65_536, 256, 4_294_967_294]),
        _ => chance.below(count.max(1)) as u32,
    };
    let good = match chance.below(8) {
        0..=2 => {
            let v = if chance.one_in(4) { chance.u32() } else { chance.below(2) as u32 };
            format!("f {} {v}", index(chance, counts[0]))
        }
        3 => format!("d {}", index(chance, counts[1])),
        4 => format!("r {}", index(chance, counts[2])),
        _ => "a".into(),
    };
    let mut bytes = good.into_bytes();
    match chance.below(20) {
        0 => chance.of(&WRONG).to_vec(),
        1 => {
            let at = chance.below(bytes.len());
            bytes[at] = chance.of(&[b' ', b'0', b'9', b'a', b'f', b'\t', b'\r', 0, 255, b'-', b'+']);
            bytes
        }
        2 => {
            let at = chance.below(bytes.len() + 1);
            bytes.insert(at, chance.of(&[b' ', b'0', b'1', b'9', b'.']));
            bytes
        }
        3 if chance.one_in(6) => {
            // Far longer than any good line, and good once it is cut short.
            let longer = chance.of(&[1, 2, 8, 100, 5_000, 70_000]);
            let with = chance.of(&[b' ', b'0', b'a']);
            bytes.resize(bytes.len() + longer, with);
            bytes
        }
        _ => bytes,
    }
}

/// A sheet's file: its bytes, or one that counts as empty.
fn put(chance: &mut Chance, path: &Path, sheet: &[u8]) -> std::io::Result<()> {
    match chance.below(40) {
        0 => Ok(()),
        1 => fs::create_dir(path),
        2 => {
            // 32,768 bytes are read and 32,769 are not: with a trailer that is right for so many, the answers differ.
            let length = chance.of(&[32_768, 32_769, 40_000]);
            let mut long = vec![0; length - 16];
            for d in [0, 0, length - 16] {
                long.extend((d as u32).to_le_bytes());
            }
            long.extend([1, 0]);
            long.extend(if path.ends_with("net.sheet") { b"SN" } else { b"SC" });
            fs::write(path, long)
        }
        _ => fs::write(path, sheet),
    }
}

impl Programs {
    fn run(&self, program: &Path, input: &Path) -> Result<Vec<u8>, String> {
        let said = |e: std::io::Error| format!("{}: {e}", program.display());
        let stdin = fs::File::open(input).map_err(said)?;
        let output = Command::new(program)
            .current_dir(&self.folder)
            .stdin(stdin)
            .stderr(Stdio::inherit())
            .output()
            .map_err(said)?;
        hold!(output.status.success(), "{} ended with {}", program.display(), output.status);
        Ok(output.stdout)
    }

    pub fn compare(&self, seed: u64, case: u64, tally: &mut Tally) -> Same {
        // Its own stream, apart from that of the library's case of the same number.
        let chance = &mut Chance::new(seed ^ 0x7472_6163_6500_0000, case);
        let Sheets { net, cut, .. } = sheets_of(chance, tally, case, false)?;
        let counts = match twin::Network::open(&net, &cut, 4_000_000_000) {
            Ok(network) => [network.inputs(), network.outputs(), network.rules()],
            Err(_) => [1, 1, 1],
        };
        let lines = match chance.below(40) {
            0 => 0,
            1 => 2_000,
            _ => chance.from_to(1, 60),
        };
        let mut commands = Vec::new();
        for _ in 0..lines {
            commands.extend(line(chance, counts));
            commands.push(b'\n');
        }
        if chance.one_in(4) {
            commands.pop();
        }
        let failed = |e: std::io::Error| format!("{}: {e}", self.folder.display());
        let _ = fs::remove_dir_all(&self.folder);
        fs::create_dir_all(&self.folder).map_err(failed)?;
        put(chance, &self.folder.join("net.sheet"), &net).map_err(failed)?;
        put(chance, &self.folder.join("cut.sheet"), &cut).map_err(failed)?;
        let input = self.folder.join("commands");
        fs::write(&input, commands).map_err(failed)?;
        let (printed, expected) = (self.run(&self.trace, &input)?, self.run(&self.twin, &input)?);
        if printed != expected {
            let rows = printed.split(|b| *b == b'\n').zip(expected.split(|b| *b == b'\n'));
            let first = rows.clone().position(|(x, y)| x != y).unwrap_or(rows.count());
            let shown = |text: &[u8]| {
                let row = text.split(|b| *b == b'\n').nth(first).unwrap_or_default();
                String::from_utf8_lossy(&row[..row.len().min(80)]).into_owned()
            };
            return Err(format!("trace, line {first} of its text: '{}', the twin '{}'", shown(&printed), shown(&expected)));
        }
        for (i, row) in printed.split(|b| *b == b'\n').enumerate().filter(|(_, row)| !row.is_empty()) {
            let word = row.split(|b| *b == b' ').nth((i == 0) as usize).unwrap_or_default();
            let answer = String::from_utf8_lossy(word).parse().map_err(|_| "trace printed no number".to_string())?;
            tally.met(if i == 0 { "trace open" } else { "trace line" }, answer);
        }
        Ok(())
    }
}
