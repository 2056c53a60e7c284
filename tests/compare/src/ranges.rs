//! The range entries on all small lists, at the lowest and at the highest points: lists that are reversed, unsorted or overlap are refused, answer lists are full, short and longer.
//! `merged` and `union` are held to slots.rs with the ranges that touch joined, and to the runs of covered points; on random lists, of up to 600 ranges, too.
use crate::cases::Random;
use crate::touching::touching_joined;
use reference::slots::probe;
use rucc_regalloc::live::Range;

extern "C" {
    fn slots_overlaps(start: u32, end: u32, other_start: u32, other_end: u32) -> u64;
    fn slots_merged(start: *const u32, start_len: usize, end: *const u32, end_len: usize, out_start: *mut u32, out_start_len: usize, out_end: *mut u32, out_end_len: usize) -> u64;
    fn slots_joined(
        start: *const u32, start_len: usize, end: *const u32, end_len: usize, new_start: u32, new_end: u32,
        out_start: *mut u32, out_start_len: usize, out_end: *mut u32, out_end_len: usize,
    ) -> u64;
    fn slots_union(
        start: *const u32, start_len: usize, end: *const u32, end_len: usize, other_start: *const u32, other_start_len: usize,
        other_end: *const u32, other_end_len: usize, out_start: *mut u32, out_start_len: usize, out_end: *mut u32, out_end_len: usize,
    ) -> u64;
    fn slots_clashes(
        start: *const u32, start_len: usize, end: *const u32, end_len: usize, other_start: *const u32, other_start_len: usize,
        other_end: *const u32, other_end_len: usize,
    ) -> u64;
}

type List = Vec<Range>;

fn columns(list: &[Range]) -> [Vec<u32>; 2] {
    [list.iter().map(|r| r.start).collect(), list.iter().map(|r| r.end).collect()]
}

/// All lists of up to so many ranges, reversed ones too, of four points.
fn lists(low: u32, most: usize) -> Vec<List> {
    let ranges: Vec<Range> = (0..16).map(|k| Range { start: low + k / 4, end: low + k % 4 }).collect();
    let mut all = vec![Vec::new()];
    let mut longest = all.clone();
    for _ in 0..most {
        longest = longest.iter().flat_map(|list: &List| ranges.iter().map(|&r| list.iter().copied().chain([r]).collect())).collect();
        all.extend(longest.clone());
    }
    all
}

/// The longest runs of points that some range has, over so many points from `low` on: what an area with those points is.
fn runs(low: u32, points: u32, list: &[Range]) -> List {
    let mut covered = vec![false; points as usize];
    list.iter().for_each(|r| covered[(r.start - low) as usize..=(r.end - low) as usize].fill(true));
    let mut all = List::new();
    for at in (0..points).filter(|&at| covered[at as usize]).map(|at| low + at) {
        match all.last_mut() {
            Some(last) if last.end + 1 == at => last.end = at,
            _ => all.push(Range { start: at, end: at }),
        }
    }
    all
}

/// What slots.rs lists, with the ranges that touch joined, which must be the runs.
fn agreed(theirs: &[Range], low: u32, points: u32, list: &[Range]) -> List {
    let wanted = touching_joined(theirs);
    assert_eq!(wanted, runs(low, points, list), "slots.rs's ranges of {list:?}");
    wanted
}

fn reversed(list: &[Range]) -> Option<usize> {
    list.iter().position(|r| r.start > r.end)
}

/// The first range that is reversed, or starts at or before the end of the one before.
fn faulty(list: &[Range]) -> Option<usize> {
    (0..list.len()).find(|&i| list[i].start > list[i].end || (i > 0 && list[i].start <= list[i - 1].end))
}

fn both(one: &[Range], two: &[Range]) -> Option<usize> {
    faulty(one).or_else(|| faulty(two).map(|i| one.len() + i))
}

/// Holds an entry that answers in a list, lent with one entry too few (7), exactly the room it asks for, and two more.
fn answered(room: usize, bad: Option<usize>, answer: impl Fn() -> List, call: impl Fn(&mut [u32], &mut [u32]) -> u64, calls: &mut usize) {
    for length in [room.wrapping_sub(1), room, room + 2] {
        if length > room + 2 {
            continue;
        }
        let (mut starts, mut ends) = (vec![700; length], vec![900; length]);
        let (mut wanted, mut last) = (starts.clone(), ends.clone());
        let code = if length < room {
            7 << 32
        } else if let Some(bad) = bad {
            (10 << 32) + bad as u64
        } else {
            let answer = answer();
            for (i, r) in answer.iter().enumerate() {
                (wanted[i], last[i]) = (r.start, r.end);
            }
            answer.len() as u64
        };
        assert_eq!((call(&mut starts, &mut ends), &starts, &ends), (code, &wanted, &last));
        *calls += 1;
    }
}

fn merged(list: &List, low: u32, points: u32, calls: &mut usize) {
    let [s, e] = columns(list);
    // SAFETY: here and below each pointer is a slice's, with that slice's length.
    let call = |a: &mut [u32], b: &mut [u32]| unsafe { slots_merged(s.as_ptr(), s.len(), e.as_ptr(), e.len(), a.as_mut_ptr(), a.len(), b.as_mut_ptr(), b.len()) };
    answered(list.len(), reversed(list), || agreed(&probe::merged(list.clone()), low, points, list), call, calls);
}

fn joined(low: u32, calls: &mut usize) {
    for list in lists(low, 2) {
        for new in lists(low, 1).into_iter().flatten() {
            let [s, e] = columns(&list);
            let call = |a: &mut [u32], b: &mut [u32]| unsafe {
                slots_joined(s.as_ptr(), s.len(), e.as_ptr(), e.len(), new.start, new.end, a.as_mut_ptr(), a.len(), b.as_mut_ptr(), b.len())
            };
            let all: List = list.iter().copied().chain([new]).collect();
            let answer = || {
                let mut pieces = list.clone();
                probe::joined(&mut pieces, new);
                pieces
            };
            answered(all.len(), reversed(&all), answer, call, calls);
        }
    }
}

fn pair(one: &List, two: &List, low: u32, points: u32, calls: &mut usize) {
    let ([s, e], [t, f]) = (columns(one), columns(two));
    let call = |a: &mut [u32], b: &mut [u32]| unsafe {
        slots_union(
            s.as_ptr(), s.len(), e.as_ptr(), e.len(), t.as_ptr(), t.len(), f.as_ptr(), f.len(), a.as_mut_ptr(), a.len(), b.as_mut_ptr(), b.len(),
        )
    };
    answered(one.len() + two.len(), both(one, two), || agreed(&probe::union(one, two), low, points, &[&one[..], two].concat()), call, calls);
    let clash = unsafe { slots_clashes(s.as_ptr(), s.len(), e.as_ptr(), e.len(), t.as_ptr(), t.len(), f.as_ptr(), f.len()) };
    let wanted = both(one, two).map_or_else(|| u64::from(probe::clashes(one, two)), |bad| (10 << 32) + bad as u64);
    assert_eq!(clash, wanted, "clashes of {one:?} and {two:?}");
    *calls += 1;
}

/// Points of the random lists.
const POINTS: u32 = 2400;

/// Up to 600 ranges of a few points each, in any order; one in ten lists may have a reversed one.
fn any(r: &mut Random, low: u32) -> List {
    let (bad, most) = (r.one_in(10), if r.one_in(20) { 600 } else { 12 });
    let line = if most > 12 { POINTS - 8 } else { 40 };
    (0..r.below(most)).map(|_| {
        let start = low + (POINTS - 8 - line) + r.below(line);
        let end = start + r.below(9);
        if bad && r.one_in(4) { Range { start: end, end: start } } else { Range { start, end } }
    }).collect()
}

/// Ranges in order, of which many touch; one in ten lists may have one that starts where the one before ends.
fn ordered(r: &mut Random, low: u32) -> List {
    let (bad, mut at, most) = (r.one_in(10), low + r.below(3), if r.one_in(20) { 240 } else { 8 });
    (0..r.below(most)).map(|_| {
        let start = at;
        let end = start + r.below(4);
        at = if bad && r.one_in(4) { end } else { end + 1 + r.below(3) };
        Range { start, end }
    }).collect()
}

fn random(count: u64, seed: u64) {
    let mut calls = 0;
    for own in seed..seed + count {
        let mut r = Random::seeded(own);
        let low = if r.one_in(2) { 0 } else { u32::MAX - (POINTS - 1) };
        merged(&any(&mut r, low), low, POINTS, &mut calls);
        let (one, two) = (ordered(&mut r, low), ordered(&mut r, low));
        pair(&one, &two, low, POINTS, &mut calls);
    }
    println!("random lists for merged, union and clashes, seeds {seed} to {}: {calls} calls, no difference", seed + count - 1);
}

pub fn compare(count: u64, seed: u64) {
    let mut calls = 0;
    for low in [0, u32::MAX - 3] {
        lists(low, 3).iter().for_each(|list| merged(list, low, 4, &mut calls));
        joined(low, &mut calls);
        let short = lists(low, 2);
        short.iter().for_each(|one| short.iter().for_each(|two| pair(one, two, low, 4, &mut calls)));
        for one in lists(low, 1).into_iter().flatten() {
            for two in lists(low, 1).into_iter().flatten() {
                let overlap = unsafe { slots_overlaps(one.start, one.end, two.start, two.end) };
                assert_eq!(overlap, u64::from(one.overlaps(two)), "overlaps of {one:?} and {two:?}");
                calls += 1;
            }
        }
    }
    println!("range entries, all lists of up to three ranges of the lowest and of the highest four points: {calls} calls, no difference");
    random(count, seed);
}
