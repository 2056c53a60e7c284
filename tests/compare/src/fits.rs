//! Fitting alone: all triples of small lists of ranges, the limits, random wants, and damaged ones.
use crate::calls::{code, cut, refused};
use crate::cases::Random;
use crate::depths;
use crate::entry::{fit_wants, Lists};
use crate::job::Lent;
use crate::plans::{fit, Areas};
use crate::refusals::{BUDGET, LIMITS, RANGES};
use crate::sizes::Sizes;
use crate::whole::{any_lists, put};
use rucc_regalloc::live::Range;

/// Wants as rows of size, alignment, present, first and count; the area list; how many are locals.
#[derive(Clone, Debug, Default)]
pub struct Wants {
    pub rows: Vec<u32>,
    pub areas: Vec<u32>,
    pub locals: u32,
    pub budget: u32,
}

/// The ranges of a want's part, where the part is in the area list.
fn part(w: &Wants, row: &[u32]) -> Option<Vec<Range>> {
    let (first, count) = (row[3] as usize, row[4] as usize);
    let part = w.areas.chunks(2).collect::<Vec<_>>().get(first..first + count)?.to_vec();
    Some(part.iter().map(|r| Range { start: r[0], end: r[1] }).collect())
}

fn sorted(ranges: &[Range]) -> bool {
    ranges.iter().all(|r| r.start <= r.end) && ranges.windows(2).all(|two| two[0].end < two[1].start)
}

/// Numbers 1, 7 and 10.
fn refusal(w: &Wants, lent: &Lent) -> Option<(u32, u32)> {
    let (wants, locals) = (w.rows.len() / 5, w.locals as usize);
    let odd = w.rows.len() % 5 != 0 || w.areas.len() % 2 != 0 || lent.cells % 2 != 0 || lent.items % 4 != 0;
    if odd || locals > wants || locals > LIMITS[5] || wants - locals > LIMITS[6] || w.areas.len() / 2 > RANGES || w.budget > BUDGET {
        return Some((1, 0));
    }
    if lent.work < space(w) || lent.cells / 2 < wants || lent.items / 4 < wants || lent.offsets < wants || lent.counts < 3 {
        return Some((7, 0));
    }
    w.rows.chunks(5).position(|row| row[2] != 0 && !part(w, row).is_some_and(|ranges| sorted(&ranges))).map(|i| (10, i as u32))
}

fn space(w: &Wants) -> usize {
    8 * (w.rows.len() / 5 + w.areas.len() / 2)
}

/// Fits wants that are not refused before: what the lists hold then, or number 12 or 13 with the lists as they were. Either way the work space is cleared.
fn fitted(w: &Wants, lists: &mut Lists) -> Result<(), (u32, u32)> {
    lists.work[..space(w)].fill(0);
    let areas: Areas = w.rows.chunks(5).map(|row| if row[2] == 0 { None } else { part(w, row) }).collect();
    let sizes: Vec<(u32, u32)> = w.rows.chunks(5).map(|row| (row[0], row[1])).collect();
    let fit = fit(&sizes, &areas, w.locals as usize, w.budget);
    let layout = fit.laid?;
    let rows = w.rows.chunks(5).zip(&fit.of);
    let items: Vec<u32> = rows.flat_map(|(row, &cell)| if row[2] == 0 { [cell as u32, 0, 0, 0] } else { [cell as u32, 1, row[3], row[4]] }).collect();
    put(&mut lists.cells, &fit.cells);
    put(&mut lists.items, &items);
    put(&mut lists.offsets, &layout.offsets);
    put(&mut lists.counts, &[fit.counts[0], fit.counts[1], layout.depth]);
    Ok(())
}

/// Holds one call; the refusal's number, or 0.
pub fn hold(w: &Wants, lent: &Lent, before: &Lists) -> usize {
    let mut expected = before.clone();
    let verdict = refusal(w, lent).or_else(|| fitted(w, &mut expected).err());
    let answer = verdict.map_or(0, |(number, index)| code(number, index));
    let mut lists = before.clone();
    let given = fit_wants(&w.rows, &w.areas, w.locals, w.budget, &mut lists);
    let same = (given, &lists) == (answer, &expected);
    assert!(same, "on {}\nlent {lent:?}\nthe entry answers {given:x}, expected {answer:x}, and leaves\n{}\nexpected\n{}", cut(w), cut(&lists), cut(&expected));
    (answer >> 32) as usize
}

/// Lists with room for all wants and so many more.
pub fn lent(w: &Wants, more: usize) -> Lent {
    let wants = w.rows.len() / 5;
    Lent { cells: 2 * wants + 2 * more, items: 4 * wants + 4 * more, areas: 0, offsets: wants + more, counts: 3 + more, work: space(w) + more }
}

/// All lists of ranges that lie apart or touch, over points below `points`.
fn range_lists(points: u32) -> Vec<Vec<[u32; 2]>> {
    let mut lists = vec![Vec::new()];
    for at in 0.. {
        let Some(list) = lists.get(at).cloned() else { return lists };
        let from = list.last().map_or(0, |last: &[u32; 2]| last[1] + 1);
        for start in from..points {
            for end in start..points {
                lists.push(list.iter().copied().chain([[start, end]]).collect());
            }
        }
    }
    unreachable!()
}

/// Three wants of each three lists: whether the first two clash, and whether the third clashes with what they are together.
fn triples(points: u32) {
    let lists = range_lists(points);
    let mut r = Random::seeded(1);
    let mut calls = 0;
    for one in &lists {
        for two in &lists {
            for three in &lists {
                let mut w = Wants { locals: 3, budget: BUDGET, ..Wants::default() };
                for list in [one, two, three] {
                    w.rows.extend([4, 4, 1, w.areas.len() as u32 / 2, list.len() as u32]);
                    w.areas.extend(list.iter().flatten());
                }
                let lent = lent(&w, 0);
                let before = any_lists(&mut r, &lent);
                assert_eq!(hold(&w, &lent, &before), 0);
                calls += 1;
            }
        }
    }
    println!("fitting alone, all triples of the {} lists of ranges over {points} points: {calls}, no difference", lists.len());
}

fn random(r: &mut Random) -> Wants {
    let mut w = Wants { budget: if r.one_in(3) { r.below(20) } else { BUDGET }, ..Wants::default() };
    let (most, sizes) = (if r.one_in(30) { 150 } else { 8 }, Sizes::of(r));
    for _ in 0..r.below(most) {
        let (first, mut at, count) = (w.areas.len() as u32 / 2, r.below(30), r.below(5));
        for _ in 0..count {
            let end = at + r.below(6);
            w.areas.extend([at, end]);
            at = end + 1 + r.below(5);
        }
        w.rows.extend([sizes.size(r), sizes.align(r), u32::from(!r.one_in(6)) * (1 + r.below(2)), first, count]);
    }
    w.locals = r.below(w.rows.len() as u32 / 5 + 1);
    w
}

fn damage(r: &mut Random, w: &mut Wants, lent: &mut Lent) {
    let any = |r: &mut Random| if r.one_in(4) { r.number() } else { r.below(12) };
    let short = 1 + r.below(4) as usize;
    match r.below(10) {
        0..=2 if !w.areas.is_empty() => {
            let at = r.below(w.areas.len() as u32) as usize;
            w.areas[at] = any(r);
        }
        3 | 4 if !w.rows.is_empty() => {
            let at = 5 * r.below(w.rows.len() as u32 / 5) as usize + 2 + r.below(3) as usize;
            w.rows[at] = any(r);
        }
        5 => drop(w.areas.pop()),
        6 => drop(w.rows.pop()),
        7 => w.locals = any(r),
        8 => w.budget = BUDGET + any(r),
        _ => match r.below(5) {
            0 => lent.cells = lent.cells.saturating_sub(short),
            1 => lent.items = lent.items.saturating_sub(short),
            2 => lent.counts = lent.counts.saturating_sub(short),
            3 => lent.offsets = lent.offsets.saturating_sub(short),
            _ => lent.work = lent.work.saturating_sub(short),
        },
    }
}

/// One want over ranges of a list.
fn one(areas: Vec<u32>, first: u32, count: u32) -> Wants {
    Wants { rows: vec![4, 4, 1, first, count], areas, locals: 1, budget: BUDGET }
}

/// So many wants of one range each, which touch.
fn many(count: u32, locals: u32) -> Wants {
    Wants { rows: (0..count).flat_map(|i| [4, 4, 1, i, 1]).collect(), areas: (0..2 * count).collect(), locals, budget: BUDGET }
}

/// A part as long as the area list may be, sound, bad at its first range, at its last or outside its list; as many wants as there may be; each list exactly full, and one short.
fn limits() {
    let all = RANGES as u32;
    let ranges: Vec<u32> = (0..2 * all).collect();
    let with = |at: u32, point: u32| {
        let mut areas = ranges.clone();
        areas[at as usize] = point;
        areas
    };
    let last = 2 * all - 2;
    let mut cases = vec![one(ranges.clone(), 0, all), one(with(last, last - 1), 0, all), one(with(last + 1, last - 1), 0, all), one(with(0, 2), 0, all)];
    cases.extend([one(with(0, 2), 1, all - 1), one(ranges.clone(), 1, all), one(ranges.clone(), all, 0), one(ranges.clone(), all + 1, 0)]);
    cases.extend([one((0..2 * all + 2).collect(), 0, all), many(4096, 2048), many(4097, 2048), many(4097, 2049)]);
    let mut at_last = many(4096, 2048);
    at_last.areas[2 * 4095] = 2 * 4096;
    cases.push(at_last);
    let mut r = Random::seeded(2);
    let mut tally = [0; 14];
    for w in &cases {
        let full = lent(w, 0);
        let mut lists = [full; 6];
        lists[1].cells -= 2;
        lists[2].items -= 4;
        lists[3].offsets -= 1;
        lists[4].counts -= 1;
        lists[5].work -= 1;
        for lent in &lists {
            let before = any_lists(&mut r, lent);
            tally[hold(w, lent, &before)] += 1;
        }
    }
    println!("fitting alone, at the limits: {}, no difference; {} plans, refusals {}", tally.iter().sum::<usize>(), tally[0], refused(&tally));
}

pub fn compare(count: u64, seed: u64) {
    triples(5);
    limits();
    depths::wants();
    let mut tally = [0; 14];
    for own in seed..seed + count {
        let mut r = Random::seeded(own);
        let mut w = random(&mut r);
        let mut lent = lent(&w, r.below(3) as usize);
        if r.one_in(2) {
            damage(&mut r, &mut w, &mut lent);
        }
        let before = any_lists(&mut r, &lent);
        tally[hold(&w, &lent, &before)] += 1;
    }
    println!("fitting alone, seeds {seed} to {}: {count}, no difference; {} plans, refusals {}", seed + count - 1, tally[0], refused(&tally));
    assert!(count < 5000 || (tally[12] > 0 && tally[13] > 0), "such a run lays out too little");
}
