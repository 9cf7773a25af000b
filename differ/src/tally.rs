// What was met: how often each call gave each answer, and which aims reached theirs.

use crate::damage::Aim;
use std::collections::BTreeMap;

/// The answers that each call has to give at least once.
const WANTED: [(&str, &[u32]); 21] = [
    ("read_net", &[0, 1, 2, 3, 4, 5, 6]),
    ("write_net", &[0, 3, 4, 5, 6, 16]),
    ("read_cut", &[0, 3, 7, 8, 9, 10, 11]),
    ("write_cut", &[0, 3, 7, 8, 9, 10, 11, 16]),
    ("label", &[0]),
    ("first_registers", &[0]),
    ("step", &[0, 12, 13, 16]),
    ("steps", &[0, 12, 13, 16]),
    ("open", &[0, 1, 2, 3, 4, 5, 6, 7, 8, 9, 10, 11, 15]),
    ("feed", &[0, 12, 13, 14]),
    ("drain", &[0, 12, 14]),
    ("tokens", &[0, 12]),
    ("finished", &[0, 12]),
    ("fire", &[0, 12, 14]),
    ("ready", &[0, 12, 14]),
    ("round", &[0]),
    ("run", &[0, 12]),
    ("order", &[0, 12, 16]),
    ("actions", &[0, 16]),
    ("trace open", &[0, 1, 2, 3, 4, 5, 6, 7, 8, 9, 10, 11]),
    ("trace line", &[0, 12, 13, 14, 17]),
];

/// What besides has to be met at least once.
const SEEN: [&str; 29] = [
    "label in the cut sheet",
    "label in the net sheet",
    "label in neither",
    "1,024 nodes opened",
    "1 node opened",
    "32 parts opened",
    "512 queues opened",
    "64 outputs opened",
    "no outputs opened",
    "4,096 label bytes read",
    "depth 16 filled",
    "limit 1 reached",
    "a limit above 1 reached",
    "20 cycles or more of 4 parts or more",
    "limit 4,000,000,000 opened",
    "run of 65,535 rounds to its end",
    "run ended by a round that fired none",
    "order with an unknown kind",
    "order of more than 200 actions",
    "actions played as the three lists are",
    "no actions played as empty lists are",
    "actions with an unknown kind among them",
    "actions with an index that is not there",
    "register of a later node",
    "register of itself",
    "junk network called",
    "junk netlist stepped",
    "image with bytes past it",
    "all 19 codes in one drawing",
];

#[derive(Default)]
pub struct Tally {
    answers: BTreeMap<(&'static str, u32), u64>,
    aims: BTreeMap<Aim, (u64, u64)>,
    seen: BTreeMap<&'static str, u64>,
}

impl Tally {
    pub fn met(&mut self, call: &'static str, answer: u32) {
        *self.answers.entry((call, answer)).or_default() += 1;
    }

    pub fn aimed(&mut self, aim: Aim, answer: u32) {
        let (tried, reached) = self.aims.entry(aim).or_default();
        *tried += 1;
        *reached += (answer == aim.answer()) as u64;
    }

    pub fn see(&mut self, what: &'static str) {
        assert!(SEEN.contains(&what), "{what} stands in no list");
        *self.seen.entry(what).or_default() += 1;
    }

    /// Prints the counts; gives what was never met. Without the program, its lines are not asked for.
    pub fn report(&self, with_trace: bool) -> Vec<String> {
        let mut never = Vec::new();
        for (call, wanted) in WANTED {
            if call.starts_with("trace") && !with_trace {
                continue;
            }
            let met: Vec<String> =
                self.answers.iter().filter(|((c, _), _)| *c == call).map(|((_, a), n)| format!("{a}: {n}")).collect();
            println!("{call:>16}  {}", met.join("  "));
            for answer in wanted {
                if !self.answers.contains_key(&(call, *answer)) {
                    never.push(format!("{call} never gave {answer}"));
                }
            }
        }
        let mut reached = BTreeMap::new();
        for aim in Aim::all() {
            let (tried, hit) = self.aims.get(&aim).copied().unwrap_or_default();
            let (all, some) = reached.entry(aim.answer()).or_insert((0u64, 0u64));
            (*all, *some) = (*all + tried, *some + hit);
            if hit == 0 {
                never.push(format!("{} ({} tries) was never answered {}", aim.name(), tried, aim.answer()));
            }
        }
        let causes: Vec<String> = reached.iter().map(|(answer, (_, hit))| format!("{answer}: {hit}")).collect();
        println!("{:>16}  {} causes, by answer {}", "damage", Aim::all().len(), causes.join("  "));
        for what in SEEN {
            match self.seen.get(what) {
                Some(n) => println!("{n:>16}  {what}"),
                None => never.push(format!("never seen: {what}")),
            }
        }
        never
    }
}
