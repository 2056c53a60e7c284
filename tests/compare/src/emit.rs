//! Jobs for the C program: their numbers and lists, and the answer and lists that are expected, as bytes.
use crate::cases::Random;
use crate::entry::Lists;
use crate::job::*;
use crate::scale;
use crate::whole::{any_lists, damaged, expected, random};
use std::io::{self, BufWriter, Write};

fn words(out: &mut impl Write, list: &[u32]) -> io::Result<()> {
    list.iter().try_for_each(|n| out.write_all(&n.to_ne_bytes()))
}

fn lists(out: &mut impl Write, l: &Lists) -> io::Result<()> {
    [&l.cells, &l.items, &l.areas].iter().try_for_each(|list| words(out, list))?;
    l.offsets.iter().try_for_each(|n| out.write_all(&n.to_ne_bytes()))?;
    [&l.counts, &l.work].iter().try_for_each(|list| list.iter().try_for_each(|n| out.write_all(&n.to_ne_bytes())))
}

fn one(out: &mut impl Write, job: &Job, lent: &Lent, seed: u64) -> io::Result<()> {
    let before = any_lists(&mut Random::seeded(seed), lent);
    let expected = expected(job, lent, &before, None);
    words(out, &[job.points, job.v, job.budget])?;
    let lengths = job.groups.iter().map(Vec::len).chain([lent.cells, lent.items, lent.areas, lent.offsets, lent.counts, lent.work]);
    words(out, &lengths.map(|n| n as u32).collect::<Vec<_>>())?;
    job.groups.iter().try_for_each(|group| words(out, group))?;
    lists(out, &before)?;
    lists(out, &expected.lists)?;
    out.write_all(&expected.answer.to_ne_bytes())
}

/// A random and a damaged job of each seed, or a large one; how many records they have is told on the other stream.
pub fn emit(count: u64, seed: u64, large: bool) -> io::Result<()> {
    let mut out = BufWriter::new(io::stdout().lock());
    let mut records = Vec::new();
    for own in seed..seed + count {
        let jobs = if large {
            let (job, _, lent) = scale::large(own);
            vec![(job, lent)]
        } else {
            vec![random(own), damaged(own)]
        };
        for (job, lent) in jobs {
            records.push((0..12).map(|group| job.count(group)).sum::<usize>());
            one(&mut out, &job, &lent, own)?;
        }
    }
    let (least, most) = (records.iter().min().copied().unwrap_or(0), records.iter().max().copied().unwrap_or(0));
    eprintln!("{} jobs, {} records each on average, {least} to {most}", records.len(), records.iter().sum::<usize>() / records.len().max(1));
    out.flush()
}
