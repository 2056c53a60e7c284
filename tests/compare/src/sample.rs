//! The recorded sample that the program `job_tests` replays: jobs and damaged jobs by their seeds, with what slots.rs and the models answer. Lists and work space have 7s at first.
use crate::cases::{list, Case};
use crate::entry::Lists;
use crate::job::{Job, Lent, LOCALS, MOVES, SLOTS};
use crate::shows::{Shown, THINGS};
use crate::whole::{damaged, expected, random};
use std::fs;

/// What the program has room for, the bytes of text that it reads, and the longest line that is taken: of a job with at most 64 locals, and of one with more.
const ROOM: Lent = Lent { cells: 160, items: 320, areas: 128, offsets: 80, counts: 3, work: 4096 };
const TEXT: usize = 98_304;
const LONGEST: [usize; 2] = [340, 760];
/// How many plans are taken that show each thing, and that show none; and how many jobs with each refusal.
const SHOWING: [usize; THINGS] = [48, 22, 22, 14, 22, 22, 22];
const PLAIN: usize = 12;
const REFUSED: usize = 14;
/// What no whole job is refused with: 8 is retired, 10 is fitting alone's, 11 the text's.
const OTHERS: [usize; 3] = [8, 10, 11];

/// Points, V, budget and the lengths of the lists and the work space; then the groups.
fn line(name: &str, job: &Job, lent: &Lent) -> String {
    let head = vec![job.points, job.v, job.budget, lent.cells as u32, lent.items as u32, lent.areas as u32, lent.offsets as u32, lent.work as u32];
    let columns: Vec<Vec<u32>> = std::iter::once(head).chain(job.groups.clone()).collect();
    Case::write(name, &columns)
}

/// The refusal's number or 0, what a plan shows, what the program counts of it, and its line.
fn answer(name: &str, job: &Job, lent: &Lent) -> (usize, Shown, [bool; 6], String) {
    let (cells, items, areas, offsets) = (vec![7; lent.cells], vec![7; lent.items], vec![7; lent.areas], vec![7; lent.offsets]);
    let before = Lists { cells, items, areas, offsets, counts: vec![7; 3], work: vec![7; lent.work] };
    let expected = expected(job, lent, &before, None);
    let (number, l) = ((expected.answer >> 32) as usize, expected.lists);
    let told = match number {
        0 => format!("plan {} {} {}", l.counts[0], l.counts[1], l.counts[2]),
        _ => format!("refused {number} at {}", expected.answer as u32),
    };
    let zeros = l.work.iter().take_while(|&&word| word == 0).count();
    let kept = l.work.iter().filter(|&&word| word == 7).count();
    let counted = if number == 0 { counted(job, expected.shown, l.counts[1]) } else { Default::default() };
    let offsets: String = l.offsets.iter().map(|n| format!(" {n}")).collect();
    let lists = format!("{} |{} |{} |{offsets}", list(&l.cells, 0), list(&l.items, 0), list(&l.areas, 0));
    (number, expected.shown, counted, format!("{name} {told}: {kept} |{lists} | {zeros}\n"))
}

/// What the program counts of a plan with so many probes: the plan, a shared cell, the budget spent, an ending local, over 64 locals, a move that names a slot.
fn counted(job: &Job, shown: Shown, probes: u64) -> [bool; 6] {
    let slot = |slot: u32| (slot as usize) < job.count(SLOTS);
    [true, shown[0], probes == u64::from(job.budget), shown[2], job.count(LOCALS) > 64, job.rows(MOVES).any(|m| slot(m[2]) || slot(m[3]))]
}

/// How many are still wanted of what a job shows: of a plan that shows nothing, of each thing, of each refusal.
struct Left {
    plain: usize,
    showing: [usize; THINGS],
    refused: [usize; 14],
}

impl Left {
    fn takes(&mut self, number: usize, shown: Shown) -> bool {
        let mut of: Vec<&mut usize> = match (number, shown.contains(&true)) {
            (0, false) => vec![&mut self.plain],
            (0, true) => self.showing.iter_mut().zip(shown).filter(|(_, shown)| *shown).map(|(left, _)| left).collect(),
            _ => vec![&mut self.refused[number]],
        };
        let wanted = of.iter().any(|left| **left > 0);
        if wanted {
            of.iter_mut().for_each(|left| **left = left.saturating_sub(1));
        }
        wanted
    }

    fn done(&self) -> bool {
        self.plain == 0 && self.showing == [0; THINGS] && self.refused == [0; 14]
    }
}

fn sample() -> (String, String) {
    let (mut jobs, mut answers, mut counts) = (String::new(), String::new(), [0; 6]);
    let refused = std::array::from_fn(|number| if number == 0 || OTHERS.contains(&number) { 0 } else { REFUSED });
    let mut left = Left { plain: PLAIN, showing: SHOWING, refused };
    for seed in 1.. {
        for (kind, (job, lent)) in [("random", random(seed)), ("damaged", damaged(seed))] {
            // the program's entry has no list of counts
            let lent = Lent { counts: 3, ..lent };
            let name = format!("{kind}_{seed}");
            let own = line(&name, &job, &lent);
            let longest = LONGEST[usize::from(job.count(LOCALS) > 64)];
            let over = lent.cells > ROOM.cells || lent.items > ROOM.items || lent.areas > ROOM.areas || lent.offsets > ROOM.offsets || lent.work > ROOM.work;
            if own.len() > longest || over {
                continue;
            }
            let (number, shown, counted, said) = answer(&name, &job, &lent);
            if left.takes(number, shown) {
                jobs += &own;
                answers += &said;
                counts.iter_mut().zip(counted).for_each(|(count, so)| *count += usize::from(so));
            }
        }
        if left.done() {
            break;
        }
    }
    let [plans, sharing, spent, ending, wide, moves] = counts;
    answers += &format!("plans {plans}: a shared cell {sharing}, the budget spent {spent}, an ending local {ending}, over 64 locals {wide}, a move of a slot {moves}\n");
    assert!(jobs.len() < TEXT, "the program does not read {} bytes", jobs.len());
    (jobs, answers)
}

/// Writes the sample, or says whether what is stored differs from it.
pub fn record(write: bool) {
    let (jobs, answers) = sample();
    let (count, last) = (jobs.lines().count(), answers.lines().last().unwrap_or(""));
    for (name, text) in [("stdin", &jobs), ("stdout", &answers)] {
        let path = format!("crates/job_tests/{name}");
        if write {
            fs::write(&path, text).expect("run in the repository's root");
        } else {
            assert!(fs::read_to_string(&path).expect("run in the repository's root") == *text, "{path} is not what is recorded now");
        }
    }
    println!("recorded sample: {count} jobs, {}; {last}", if write { "written" } else { "as stored" });
}
