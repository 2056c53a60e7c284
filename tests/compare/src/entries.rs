//! The entries of the parts through the static library, on random and damaged input: the answer, each list and the work space, to the word.
use crate::calls::Tally;
use crate::cases::Random;
use crate::{carried, graphs, local_areas, moves, texts};
use std::panic::{catch_unwind, resume_unwind};

/// A call made of random numbers and held, and how it was answered; the answers that a run must meet.
struct Entry {
    name: &'static str,
    call: fn(&mut Random) -> usize,
    gives: &'static [usize],
}

const ENTRIES: [Entry; 11] = [
    Entry { name: "components", call: graphs::components, gives: &[0, 1, 2, 3, 7] },
    Entry { name: "settling", call: graphs::settling, gives: &[0, 1, 2, 3, 7] },
    Entry { name: "flowed", call: graphs::flowed, gives: &[0, 1, 2, 3, 7] },
    Entry { name: "spread", call: graphs::spread, gives: &[0, 1, 2, 3, 7] },
    Entry { name: "reach", call: carried::reach, gives: &[0, 1, 2, 4, 5, 7] },
    Entry { name: "carried", call: carried::carried, gives: &[0, 1, 2, 4, 5, 7, Tally::NONE] },
    Entry { name: "moved", call: moves::moved, gives: &[0, 1, 2, 4, 5, 7] },
    Entry { name: "spilled", call: moves::spilled, gives: &[0, 1, 6, 7] },
    Entry { name: "local_areas", call: local_areas::local_areas, gives: &[0, 1, 2, 3, 4, 6, 7, 9] },
    Entry { name: "item_areas", call: local_areas::item_areas, gives: &[0, 1, 2, 3, 4, 5, 6, 7, 9] },
    Entry { name: "print_text", call: texts::print_text, gives: &[0, 1, 2, 3, 4, 5, 6, 7, 9, 11, 12, 13] },
];

/// So many calls of each entry, or of the one of that name.
pub fn compare(count: u64, seed: u64, name: Option<&str>) {
    let chosen: Vec<&Entry> = ENTRIES.iter().filter(|entry| name.map_or(true, |name| entry.name == name)).collect();
    assert!(!chosen.is_empty(), "no entry has that name");
    for entry in chosen {
        let mut tally = Tally::default();
        for own in seed..seed + count {
            let answered = catch_unwind(|| (entry.call)(&mut Random::seeded(own))).unwrap_or_else(|said| {
                eprintln!("{}, seed {own}", entry.name);
                resume_unwind(said)
            });
            tally.0[answered] += 1;
        }
        tally.say(&format!("{}, seeds {seed} to {}", entry.name, seed + count - 1), entry.gives);
    }
}
