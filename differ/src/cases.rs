// One case: two sheets, good or damaged, and everything that library and twin make of them.

use crate::chance::Chance;
use crate::damage::{noise, scratch, Aim};
use crate::drawings::{pair, CODES};
use crate::tally::Tally;
use crate::{junk, networks, sheets, steps, Same};

/// The two sheets of a case, and what was aimed at.
pub struct Sheets {
    pub net: Vec<u8>,
    pub cut: Vec<u8>,
    aims: Vec<Aim>,
}

/// Good sheets; aimed damage, each aim in its turn; wrong bytes anywhere; noise.
pub fn sheets_of(chance: &mut Chance, tally: &mut Tally, case: u64, by_hand: bool) -> Result<Sheets, String> {
    let mut aims = Vec::new();
    match case % 8 {
        0..=3 => {
            let pair = pair(chance);
            let Ok(net) = twin::read_net(&pair.net.sheet()) else { return Err("the generator made a bad drawing".into()) };
            if CODES.iter().all(|&code| net.record[..net.nodes].iter().any(|x| x.code == code)) {
                tally.see("all 19 codes in one drawing");
            }
            Ok(Sheets { net: pair.net.sheet(), cut: pair.cut.sheet(), aims })
        }
        4 | 5 => {
            let all = Aim::all();
            let first = all[(case / 8 * 2 + case % 2) as usize % all.len()];
            let good = first.pair(chance);
            let mut bent = good.clone();
            aims.push(first);
            while aims.len() < 4 && chance.one_in(4) {
                aims.push(chance.of(&all));
            }
            for aim in &aims {
                aim.bend(chance, &mut bent);
            }
            if by_hand {
                sheets::write_by_hand(chance, tally, &good, &bent)?;
            }
            let (mut net, mut cut) = (bent.net.sheet(), bent.cut.sheet());
            for aim in &aims {
                aim.tear(chance, &mut net, &mut cut);
            }
            Ok(Sheets { net, cut, aims })
        }
        6 => {
            let pair = pair(chance);
            let (mut net, mut cut) = (pair.net.sheet(), pair.cut.sheet());
            for _ in 0..chance.from_to(1, 4) {
                if chance.one_in(2) {
                    scratch(chance, &mut net);
                } else {
                    scratch(chance, &mut cut);
                }
            }
            Ok(Sheets { net, cut, aims })
        }
        _ => {
            let pair = pair(chance);
            let net = if chance.one_in(2) { pair.net.sheet() } else { noise(chance, b"SN") };
            let cut = if chance.one_in(3) { pair.cut.sheet() } else { noise(chance, b"SC") };
            Ok(Sheets { net, cut, aims })
        }
    }
}

pub fn compare(seed: u64, case: u64, tally: &mut Tally) -> Same {
    let chance = &mut Chance::new(seed, case);
    let Sheets { net, cut, aims } = sheets_of(chance, tally, case, true)?;
    let read = sheets::read(chance, tally, &net, &cut)?;
    let answer = match (&read.net, &read.cut) {
        (Err(refusal), _) | (_, Err(refusal)) => refusal.answer,
        _ => 0,
    };
    if let [aim] = aims[..] {
        tally.aimed(aim, answer);
    }
    if case % 8 < 4 && answer != 0 {
        return Err(format!("the generator made a pair that is refused by {answer}"));
    }
    let nodes = read.net.as_ref().map_or(1, |net| net.nodes);
    if case % 3 == 0 {
        sheets::labels(chance, tally, &net, &cut, nodes)?;
    }
    let limit = networks::limit(chance);
    networks::compare(chance, tally, &net, &cut, limit, &read, true)?;
    if let Ok(net) = &read.net {
        steps::compare(chance, tally, net)?;
    }
    if case % 16 == 9 {
        junk::compare(chance, tally)?;
    }
    Ok(())
}
