//! Texts through the planning program and the entry of the static library: of random and damaged jobs, with damaged bytes, and of any bytes.
use crate::calls::{about, code, refused};
use crate::cases::Random;
use crate::depths;
use crate::grammar::{printed, write};
use crate::job::*;
use crate::refusals::BUDGET;
use crate::random::{any_lent, damaged, random};
use std::io::Write;
use std::process::{Command, Stdio};

extern "C" {
    fn slots_print_text(text: *const u8, text_len: usize, out: *mut u8, out_len: usize) -> u64;
}

/// The program's text by the entry of the static library, in a list made for its length: the number that it is refused with, or 7 where the list is shorter than the text.
pub fn entry(text: &[u8], list: impl FnOnce(usize) -> Vec<u8>) -> usize {
    let (expected, number) = printed(text);
    let mut out = list(expected.len());
    let mut left = out.clone();
    let fits = expected.len() <= left.len();
    if fits {
        left[..expected.len()].copy_from_slice(expected.as_bytes());
    }
    let wanted = if fits { expected.len() as u64 } else { code(7, 0) };
    // SAFETY: each pointer is a slice's, with that slice's length.
    let given = unsafe { slots_print_text(text.as_ptr(), text.len(), out.as_mut_ptr(), out.len()) };
    let (said, written) = (String::from_utf8_lossy(text), String::from_utf8_lossy(&out));
    assert!((given, &out) == (wanted, &left), "the entry answers {given:x}, expected {wanted:x}, and writes\n{written}expected\n{expected}on\n{said}");
    if fits { number } else { 7 }
}

pub fn print_text(r: &mut Random) -> usize {
    entry(&text(r), |length| (0..about(r, length)).map(|_| r.below(256) as u8).collect())
}

fn run(text: &[u8]) -> Vec<u8> {
    let mut child = Command::new("crates/plan/out/plan").stdin(Stdio::piped()).stdout(Stdio::piped()).spawn().expect("the planning program is built");
    let mut stdin = child.stdin.take().unwrap();
    stdin.write_all(text).unwrap();
    drop(stdin);
    child.wait_with_output().unwrap().stdout
}

/// A byte that a job text has, or any.
fn byte(r: &mut Random) -> u8 {
    let some = b"HBEIOXLSAKRPM,,,---\n\n0123456789\r \0\x80\xff";
    if r.one_in(10) { r.below(256) as u8 } else { some[r.below(some.len() as u32) as usize] }
}

fn damage(r: &mut Random, text: &mut Vec<u8>) {
    if text.is_empty() {
        return;
    }
    let at = r.below(text.len() as u32) as usize;
    let line = |at: usize, text: &[u8]| {
        let start = text[..at].iter().rposition(|&b| b == b'\n').map_or(0, |p| p + 1);
        let end = text[at..].iter().position(|&b| b == b'\n').map_or(text.len(), |p| at + p + 1);
        start..end
    };
    match r.below(14) {
        0 | 1 => text[at] = byte(r),
        2 => text.insert(at, byte(r)),
        3 => drop(text.remove(at)),
        4 => text.truncate(at),
        5 => drop(text.pop()),
        6 => drop(text.drain(line(at, text))),
        7 => {
            let own = text[line(at, text)].to_vec();
            let to = line(r.below(text.len() as u32) as usize, text).start;
            text.splice(to..to, own);
        }
        8 => {
            // more records than the program takes, or as many
            let own = text[line(at, text)].to_vec();
            let to = line(at, text).end;
            text.splice(to..to, own.repeat(60 + r.below(8) as usize));
        }
        9 | 10 => {
            // a number by another one
            let end = (at..text.len()).find(|&k| !text[k].is_ascii_digit()).unwrap_or(text.len());
            let numbers: [&[u8]; 11] = [b"4294967295", b"4294967296", b"2147483647", b"2147483648", b"00", b"-", b"64", b"65", b"256", b"257", b"99999999999999999999999"];
            text.splice(at..end, numbers[r.below(11) as usize].iter().copied());
        }
        11 => {
            // a line as long as one may be, or longer
            let to = line(at, text).end.saturating_sub(1);
            text.splice(to..to, b"0".repeat(100 + r.below(60) as usize));
        }
        12 => text.splice(at..at, b"\r\n".iter().copied()).for_each(drop),
        _ => {
            let other = r.below(text.len() as u32) as usize;
            text.swap(at, other);
        }
    }
}

/// Many items, each with an area: as many ranges as the program's area list takes, or more.
fn crowd(r: &mut Random) -> Job {
    let mut job = Job { points: 400, budget: BUDGET, ..Job::default() };
    let (insts, slots) = (1 + r.below(64), 1 + r.below(30));
    let g = &mut job.groups;
    g[BLOCKS] = vec![0, 0, 400];
    for i in 0..insts {
        let early = r.below(390);
        g[INSTS].extend([1, 0, early, early + r.below(10), 0, 0, 256, 256, 0]);
        g[LOCALS].extend([1 << r.below(4), 1 << r.below(4)]);
        g[ADDRESSES].extend([i, r.below(insts)]);
    }
    g[SLOTS] = (0..slots).map(|_| 1 << r.below(4)).collect();
    g[MOVES] = (0..r.below(65)).flat_map(|_| [r.below(2), r.below(insts), r.below(slots), u32::MAX]).collect();
    job
}

fn text(r: &mut Random) -> Vec<u8> {
    if r.one_in(40) {
        return (0..r.below(200)).map(|_| byte(r)).collect();
    }
    let mut job = if r.one_in(12) { crowd(r) } else { random(r, 6) };
    if r.one_in(4) {
        let lent = any_lent(r, &job);
        job = damaged(r, job, lent).0;
        for (group, width) in WIDTHS.iter().enumerate() {
            let whole = job.count(group) * width;
            job.groups[group].truncate(whole);
        }
    }
    let mut text = write(&job).into_bytes();
    if r.one_in(3) {
        for _ in 0..1 + r.below(3) {
            damage(r, &mut text);
        }
    }
    if r.one_in(2000) {
        // a malformed line after very many
        text.extend(b"M,2,0,-,-\n".repeat(100_000));
        damage(r, &mut text);
    }
    text
}

/// Holds what the program prints; the refusal's number, or 0.
fn hold(text: &[u8], what: &str) -> usize {
    let (expected, number) = printed(text);
    let said = run(text);
    assert!(said == expected.as_bytes(), "{what}: the program prints\n{}expected\n{expected}on\n{}", String::from_utf8_lossy(&said), String::from_utf8_lossy(text));
    number
}

pub fn compare(count: u64, seed: u64) {
    let mut tally = [0; 14];
    let deep = depths::texts();
    for (job, wanted) in &deep {
        let number = hold(write(job).as_bytes(), "cells at the limits of the layout");
        assert_eq!(number, *wanted, "on {job:?}");
        tally[number] += 1;
    }
    println!("texts of cells at the limits of the layout: {}, no difference; {} plans, refusals {}", deep.len(), tally[0], refused(&tally));
    let mut tally = [0; 14];
    for own in seed..seed + count {
        tally[hold(&text(&mut Random::seeded(own)), &format!("seed {own}"))] += 1;
    }
    println!("texts, seeds {seed} to {}: {count}, no difference; {} plans, refusals {}", seed + count - 1, tally[0], refused(&tally));
}
