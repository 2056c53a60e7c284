//! Whole jobs through the entry of the static library, held to slots.rs and the models: the answer, each list and the work space, to the word.
use crate::calls::{code, refused};
use crate::cases::Random;
use crate::entry::{share, Lists};
use crate::job::*;
use crate::plans::{areas, plan, ranges, Areas};
use crate::refusals::refusal;
use crate::shows::{shown, Shown, SHOWN, THINGS};

/// What a job must be answered, what the lists and the work space must hold afterwards, and what its plan shows.
pub struct Expected {
    pub answer: u64,
    pub lists: Lists,
    pub shown: Shown,
}

impl Expected {
    fn refused((number, index): (u32, u32), lists: Lists) -> Self {
        Self { answer: code(number, index), lists, shown: Shown::default() }
    }
}

pub fn put<T: Copy>(list: &mut [T], answer: &[T]) {
    let room = list.len().min(answer.len());
    list[..room].copy_from_slice(&answer[..room]);
}

/// The lists are as they were but where a plan is written, and where the work space is cleared: after a plan, and after 9, 12 and 13.
pub fn expected(job: &Job, lent: &Lent, before: &Lists, known: Option<&Areas>) -> Expected {
    let mut lists = before.clone();
    if let Some(verdict) = refusal(job, lent) {
        return Expected::refused(verdict, lists);
    }
    lists.work[..space(job, lent.areas)].fill(0);
    let made;
    let wanted = match known {
        Some(areas) => areas,
        None => {
            made = areas(job);
            &made
        }
    };
    if ranges(wanted) > lent.areas / 2 {
        return Expected::refused((9, 0), lists);
    }
    let plan = plan(job, wanted);
    let layout = match &plan.laid {
        Ok(layout) => layout,
        Err(verdict) => return Expected::refused(*verdict, lists),
    };
    assert!(plan.cells.len() <= lists.cells.len() && plan.items.len() <= lists.items.len() && plan.areas.len() <= lists.areas.len());
    assert!(layout.offsets.len() == plan.cells.len() / 2 && layout.offsets.len() <= lists.offsets.len());
    put(&mut lists.cells, &plan.cells);
    put(&mut lists.items, &plan.items);
    put(&mut lists.areas, &plan.areas);
    put(&mut lists.offsets, &layout.offsets);
    put(&mut lists.counts, &[plan.counts[0], plan.counts[1], layout.depth]);
    Expected { answer: 0, lists, shown: shown(job, wanted, &plan, layout) }
}

/// A random job of a seed, with lists that it is planned in but for one in ten.
pub fn random(seed: u64) -> (Job, Lent) {
    let mut r = Random::seeded(seed);
    let most = if r.one_in(50) { 40 } else { 6 };
    let job = crate::random::random(&mut r, most);
    let lent = lent(&mut r, &job, ranges(&areas(&job)));
    (job, lent)
}

/// A damaged job of a seed.
pub fn damaged(seed: u64) -> (Job, Lent) {
    let mut r = Random::seeded(seed);
    let job = crate::random::random(&mut r, 6);
    let lent = crate::random::any_lent(&mut r, &job);
    crate::random::damaged(&mut r, job, lent)
}

/// Lists of those lengths with any numbers in them.
pub fn any_lists(r: &mut Random, lent: &Lent) -> Lists {
    let mut short = |n: usize| -> Vec<u32> { (0..n).map(|_| r.number()).collect() };
    let (cells, items, areas) = (short(lent.cells), short(lent.items), short(lent.areas));
    let offsets = short(lent.offsets).into_iter().map(|n| n as i32).collect();
    let mut long = |n: usize| -> Vec<u64> { (0..n).map(|_| r.word()).collect() };
    Lists { cells, items, areas, offsets, counts: long(lent.counts), work: long(lent.work) }
}

/// How many jobs were answered with a plan and how many with each refusal; how many plans show each thing.
#[derive(Default)]
pub struct Tally(pub [usize; 14], pub [usize; THINGS]);

impl Tally {
    pub fn all(&self) -> usize {
        self.0.iter().sum()
    }

    pub fn count(&mut self, number: usize, shown: Shown) {
        self.0[number] += 1;
        self.1.iter_mut().zip(shown).for_each(|(count, shown)| *count += usize::from(shown));
    }

    pub fn told(&self) -> String {
        SHOWN.iter().zip(self.1).map(|(what, count)| format!("{count} {what}")).collect::<Vec<_>>().join(", ")
    }

    pub fn say(&self, what: &str) {
        println!("{what}: {} jobs, no difference; {} plans, refusals {}", self.all(), self.0[0], refused(&self.0));
        println!("  of the plans {}", self.told());
    }

    /// Of a run of some hundred plans each thing must be shown by some, and the layout must have refused some jobs with each of its numbers.
    pub fn must_show(&self) {
        assert!(self.0[0] < 500 || self.1.iter().all(|&count| count > 0), "of {} plans {}: such a run shows too little", self.0[0], self.told());
        assert!(self.0[0] < 500 || (self.0[12] > 0 && self.0[13] > 0), "refusals {}: such a run lays out too little", refused(&self.0));
    }
}

/// Whether the entry answers and leaves what it must; if so, the refusal's number or 0, and what the plan shows.
fn held(job: &Job, lent: &Lent, seed: u64, known: Option<&Areas>) -> Result<(usize, Shown), String> {
    let before = any_lists(&mut Random::seeded(seed), lent);
    let expected = expected(job, lent, &before, known);
    let mut lists = before;
    let answer = share(job, &mut lists);
    let told = |code: u64| if code == 0 { "a plan".to_string() } else { format!("refusal {} at {}", code >> 32, code as u32) };
    if answer != expected.answer {
        return Err(format!("the entry answers {}, expected {}", told(answer), told(expected.answer)));
    }
    let e = &expected.lists;
    for (name, left, wanted) in [("cells", &lists.cells, &e.cells), ("items", &lists.items, &e.items), ("areas", &lists.areas, &e.areas)] {
        if left != wanted {
            return Err(format!("{} is answered, and {name} left as {left:?}, expected {wanted:?}", told(answer)));
        }
    }
    if lists.offsets != e.offsets {
        return Err(format!("{} is answered, and offsets left as {:?}, expected {:?}", told(answer), lists.offsets, e.offsets));
    }
    for (name, left, wanted) in [("counts", &lists.counts, &e.counts), ("work space", &lists.work, &e.work)] {
        if let Some(at) = (0..left.len()).find(|&at| left[at] != wanted[at]) {
            return Err(format!("{} is answered, and word {at} of the {name} is left as {}, expected {}", told(answer), left[at], wanted[at]));
        }
    }
    Ok(((answer >> 32) as usize, expected.shown))
}

/// The job with rows left out for as long as the difference stays.
fn smaller(mut job: Job, lent: &Lent, seed: u64) -> Job {
    let differs = |job: &Job| std::panic::catch_unwind(|| held(job, lent, seed, None)).map_or(true, |h| h.is_err());
    loop {
        let before = job.clone();
        for group in 0..12 {
            let mut at = 0;
            while (at + 1) * WIDTHS[group] <= job.groups[group].len() {
                let mut less = job.clone();
                if group == INSTS {
                    let first: usize = job.rows(INSTS).take(at).map(|row| row[8] as usize).sum();
                    let own = job.groups[INSTS][9 * at + 8] as usize;
                    if 2 * (first + own) <= less.groups[OPERANDS].len() {
                        less.groups[OPERANDS].drain(2 * first..2 * (first + own));
                    }
                }
                less.groups[group].drain(at * WIDTHS[group]..(at + 1) * WIDTHS[group]);
                if differs(&less) {
                    job = less;
                } else {
                    at += 1;
                }
            }
        }
        if job == before {
            return job;
        }
    }
}

/// Holds one job; stops with a smaller job that differs too.
pub fn hold(job: &Job, lent: &Lent, seed: u64, known: Option<&Areas>, tally: &mut Tally) {
    match held(job, lent, seed, known) {
        Ok((number, shown)) => tally.count(number, shown),
        Err(said) => {
            let least = smaller(job.clone(), lent, seed);
            panic!("seed {seed}: {said}\non {job:?}\nlent {lent:?}\nand on {least:?}");
        }
    }
}
