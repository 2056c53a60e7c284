//! Compares the component with slots.rs: whole jobs and each entry of its parts through the static library, parts by the programs that test them, texts through the planning program.
mod areas;
mod calls;
mod carried;
mod carry;
mod cases;
mod depths;
mod emit;
mod entries;
mod entry;
mod fits;
mod grammar;
mod graphs;
mod items;
mod job;
mod layout;
mod limits;
mod local_areas;
mod moves;
mod parts;
mod plans;
mod queries;
mod random;
mod ranges;
mod refusals;
mod sample;
mod scale;
mod shows;
mod sizes;
mod small;
mod spills;
mod texts;
mod touching;
mod walks;
mod whole;
mod words;

use job::{Job, Lent};
use whole::{hold, Tally};

const USAGE: &str = "parts CASES | walks PARTS SEED | jobs JOBS SEED | damaged JOBS SEED | small | limits JOBS | scale SECONDS SEED | entries CALLS SEED [NAME] | graphs | words CALLS SEED | texts TEXTS SEED | fits CALLS SEED | ranges LISTS SEED | queries JOBS SEED | sample | record | emit JOBS SEED [large]";

/// Jobs from a seed on, each by a seed of its own.
fn jobs(what: &str, made: fn(u64) -> (Job, Lent), count: u64, seed: u64) {
    let mut tally = Tally::default();
    for own in seed..seed + count {
        let (job, lent) = made(own);
        hold(&job, &lent, own, None, &mut tally);
    }
    tally.say(&format!("{what} jobs, seeds {seed} to {}", seed + count - 1));
    tally.must_show();
}

fn main() {
    let given: Vec<String> = std::env::args().skip(1).collect();
    let number = |at: usize, or: u64| given.get(at).map_or(or, |n| n.parse().unwrap_or_else(|_| panic!("{n} is no number; {USAGE}")));
    match given.first().map(String::as_str) {
        Some("parts") => parts::compare(number(1, 10_000) as usize),
        Some("walks") => walks::compare(number(1, 100_000) as usize, number(2, 1)),
        Some("jobs") => jobs("random", whole::random, number(1, 100_000), number(2, 1)),
        Some("damaged") => jobs("damaged", whole::damaged, number(1, 50_000), number(2, 1)),
        Some("small") => small::compare(),
        Some("limits") => limits::compare(number(1, 200)),
        Some("scale") => scale::compare(number(1, 60), number(2, 1)),
        Some("entries") => entries::compare(number(1, 50_000), number(2, 1), given.get(3).map(String::as_str)),
        Some("graphs") => graphs::small(),
        Some("words") => words::compare(number(1, 50_000), number(2, 1)),
        Some("texts") => texts::compare(number(1, 5_000), number(2, 1)),
        Some("fits") => fits::compare(number(1, 100_000), number(2, 1)),
        Some("ranges") => ranges::compare(number(1, 20_000), number(2, 1)),
        Some("queries") => queries::compare(number(1, 50_000), number(2, 1)),
        Some("sample") => sample::record(false),
        Some("record") => sample::record(true),
        Some("emit") => emit::emit(number(1, 5_000), number(2, 1), given.get(3).is_some_and(|what| what == "large")).expect("what reads the jobs reads them all"),
        _ => panic!("{USAGE}"),
    }
}
