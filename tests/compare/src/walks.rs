//! The walk over a given area, against a model from document 02's words: what the test program has stored, and random parts of random area lists.
use crate::cases::{Case, Random, LONGEST, ROOM};
use crate::parts::run;

const PROGRAM: &str = "walk_tests";

/// The ranges of an area list: rows of two numbers, start and end ("a range has both ends included"). An odd number left over is no range.
fn ranges(areas: &[u32]) -> Vec<(u32, u32)> {
    areas.chunks_exact(2).map(|row| (row[0], row[1])).collect()
}

/// "An area outside its list": the part's first and count together exceed the ranges of the list, an empty part included. Summed in 64 bits.
fn outside(list: &[(u32, u32)], first: u32, count: u32) -> bool {
    u64::from(first) + u64::from(count) > list.len() as u64
}

/// A range "that is reversed": it ends before it starts.
fn reversed(part: &[(u32, u32)], place: usize) -> bool {
    let (start, end) = part[place];
    end < start
}

/// A range that "starts no later than the one before ends". The part's own first range has none before it. Touching is not bad.
fn too_early(part: &[(u32, u32)], place: usize) -> bool {
    place > 0 && part[place].0 <= part[place - 1].1
}

/// What the walk tells of a part: by what it is so, and how many ranges are looked at.
#[derive(Clone, Copy, PartialEq, Eq)]
enum Walked {
    Absent,
    Outside,
    Stopped(usize),
    Whole(usize),
}

/// "All, or up to and with the first that is reversed or starts no later than the one before ends; none of an area outside its list", none of an absent want's.
fn walked(areas: &[u32], present: u32, first: u32, count: u32) -> Walked {
    if present == 0 {
        return Walked::Absent;
    }
    let list = ranges(areas);
    if outside(&list, first, count) {
        return Walked::Outside;
    }
    let part = &list[first as usize..][..count as usize];
    match (0..part.len()).position(|place| reversed(part, place) || too_early(part, place)) {
        Some(place) => Walked::Stopped(place + 1),
        None => Walked::Whole(part.len()),
    }
}

/// As the program prints it.
fn line(told: Walked) -> String {
    match told {
        Walked::Absent => "walk fine 0".to_string(),
        Walked::Outside => "walk bad 0".to_string(),
        Walked::Stopped(n) => format!("walk bad {n}"),
        Walked::Whole(n) => format!("walk fine {n}"),
    }
}

fn mark(told: Walked) -> char {
    match told {
        Walked::Stopped(n) => b"?abc"[n] as char,
        Walked::Whole(n) => b"0123"[n] as char,
        _ => unreachable!("a list's own part is in it"),
    }
}

/// Every list of so many ranges over the four points from `low` on, 64 to a line.
fn every(count: u32, low: u32) -> Vec<String> {
    let digits = 2 * count;
    let list = |k: u32| (0..digits).map(|i| low + (k >> (2 * (digits - 1 - i))) % 4).collect::<Vec<u32>>();
    let marks: Vec<char> = (0..1 << (2 * digits)).map(|k| mark(walked(&list(k), 1, 0, count))).collect();
    let rows = marks.chunks(64).map(|row| row.iter().collect());
    ["every".to_string()].into_iter().chain(rows).collect()
}

#[derive(Default)]
struct Tally {
    absent: usize,
    outside: usize,
    stopped: usize,
    whole: usize,
    lists: usize,
}

impl Tally {
    fn count(&mut self, told: Walked) {
        match told {
            Walked::Absent => self.absent += 1,
            Walked::Outside => self.outside += 1,
            Walked::Stopped(_) => self.stopped += 1,
            Walked::Whole(_) => self.whole += 1,
        }
    }

    fn cases(&self) -> usize {
        self.absent + self.outside + self.stopped + self.whole
    }

    fn say(&self, what: &str) {
        println!(
            "the walk, {what}: {} parts ({} sound, {} with a bad range, {} outside, {} absent) and {} whole lists, no difference",
            self.cases(), self.whole, self.stopped, self.outside, self.absent, self.lists
        );
        assert!([self.absent, self.outside, self.stopped, self.whole].iter().all(|&n| n > 0), "a kind of part did not come");
    }
}

fn hold(input: &str, printed: &str, tally: &mut Tally) {
    let mut printed = printed.lines();
    for text in input.lines() {
        let case = Case::read(text);
        let asked = &case.columns[0];
        let expected = if case.name == "walk" {
            let told = walked(&case.columns[1], asked[0], asked[1], asked[2]);
            tally.count(told);
            vec![line(told)]
        } else {
            tally.lists += 16usize.pow(asked[0]);
            every(asked[0], asked[1])
        };
        for line in expected {
            assert_eq!(printed.next(), Some(line.as_str()), "{PROGRAM} on\n{text}");
        }
    }
    assert_eq!(printed.next(), None, "{PROGRAM}: more lines than cases");
}

/// A part of a list of up to twelve ranges, at low or at the highest points. Most lie apart or touch; now and then one starts where the one before ends, or is reversed. Damaged ones have one to
/// three of their numbers changed.
fn random(r: &mut Random, damaged: bool) -> String {
    let mut areas = Vec::new();
    let mut at = if r.one_in(4) { u32::MAX - r.below(40) } else { 1 + r.below(30) };
    for _ in 0..r.below(13) {
        let end = if r.one_in(15) { at - 1 } else { at.saturating_add(r.below(4)) };
        areas.extend([at, end]);
        let gap = if r.one_in(10) { 0 } else { 1 + r.below(3) };
        let Some(next) = end.max(1).checked_add(gap) else { break };
        at = next;
    }
    let count = areas.len() as u32 / 2;
    let first = r.below(count + 1);
    let mut asked = vec![1 + r.below(2), first, r.below(count - first + 1)];
    if damaged {
        for _ in 0..1 + r.below(3) {
            damage(r, &mut asked, &mut areas);
        }
    }
    Case::write("walk", &[asked, areas])
}

fn damage(r: &mut Random, asked: &mut [u32], areas: &mut Vec<u32>) {
    let any = |r: &mut Random| match r.below(4) {
        0 => r.number(),
        1 => u32::MAX - r.below(16),
        _ => r.below(16),
    };
    match r.below(6) {
        0 => asked[r.below(3) as usize] = any(r),
        1 => drop(areas.pop()),
        _ if areas.is_empty() => asked[0] = 0,
        2 => {
            let (i, j) = (r.below(areas.len() as u32) as usize, r.below(areas.len() as u32) as usize);
            areas.swap(i, j);
        }
        3 => {
            // the point of a neighbour: ranges that share one point, or a range of one point
            let at = r.below(areas.len() as u32) as usize;
            areas[at] = areas[at.saturating_sub(1)];
        }
        _ => {
            let at = r.below(areas.len() as u32) as usize;
            areas[at] = any(r);
        }
    }
}

/// The stored cases, and so many random parts, one in ten of them damaged, then a fifth as many damaged ones.
pub fn compare(count: usize, seed: u64) {
    let file = |name: &str| std::fs::read_to_string(format!("crates/{PROGRAM}/{name}")).expect("run in the repository's root");
    let mut stored = Tally::default();
    hold(&file("stdin"), &file("stdout"), &mut stored);
    stored.say("stored");

    let mut r = Random::seeded(seed);
    for (what, wanted, damaged) in [("random", count, false), ("damaged", count / 5, true)] {
        let mut tally = Tally::default();
        while tally.cases() < wanted {
            let mut input = String::new();
            while input.len() < ROOM - LONGEST {
                let bad = damaged || r.one_in(10);
                input += &random(&mut r, bad);
            }
            hold(&input, &run(PROGRAM, &input), &mut tally);
        }
        tally.say(what);
    }
}
