//! The queries over the plans of random jobs, by slots.rs, and over damaged and made-up plans, by a model of document 01's words; `apart` and `cap`.
use crate::calls::{about_rows, code, cut, Tally, ABSENT};
use crate::cases::Random;
use crate::job::{Job, LOCALS, SLOTS};
use crate::plans::{areas, planned};
use crate::refusals::{area_list, LIMITS};
use crate::touching::touching_joined;
use reference::frame::Local;
use reference::slots::Slots;

extern "C" {
    fn slots_local(cells: *const u32, cells_len: usize, items: *const u32, items_len: usize, locals: u32, i: u32) -> u64;
    fn slots_slot(cells: *const u32, cells_len: usize, items: *const u32, items_len: usize, locals: u32, i: u32) -> u64;
    fn slots_saved(cells: *const u32, cells_len: usize, items: *const u32, items_len: usize, locals: u32) -> u64;
    fn slots_shared(
        cells: *const u32, cells_len: usize, items: *const u32, items_len: usize, areas: *const u32, areas_len: usize, locals: u32, i: u32,
        part: *mut u64, part_len: usize,
    ) -> u64;
    fn slots_crowded(cells: *const u32, cells_len: usize, items: *const u32, items_len: usize, locals: u32, out: *mut u32, out_len: usize) -> u64;
    fn slots_cap(cells: *mut u32, cells_len: usize, count: u32, most: u32) -> u64;
    fn slots_apart(
        locals: *const u32, locals_len: usize, slots: *const u32, slots_len: usize, cells: *mut u32, cells_len: usize, items: *mut u32, items_len: usize,
    ) -> u64;
}

/// A plan that is lent.
#[derive(Clone, Debug)]
struct Held {
    cells: Vec<u32>,
    items: Vec<u32>,
    areas: Vec<u32>,
    locals: u32,
}

impl Held {
    fn rows(&self) -> Vec<&[u32]> {
        self.items.chunks(4).collect()
    }

    fn slots(&self) -> usize {
        (self.items.len() / 4).saturating_sub(self.locals as usize)
    }

    fn crowd(&self, cell: u32) -> bool {
        self.items.chunks(4).filter(|row| row[0] == cell).count() > 1
    }

    /// Number 1: lists that are cut, counts over their limits; 7; 10: an item that names no cell or, where the area list is lent too, a part outside it, then more cells than items.
    fn refused(&self, areas: bool, short: bool) -> Option<u64> {
        let (cells, items, locals) = (self.cells.len() / 2, self.items.len() / 4, self.locals as usize);
        let odd = self.cells.len() % 2 != 0 || self.items.len() % 4 != 0 || (areas && area_list(self.areas.len()));
        if odd || locals > items || locals > LIMITS[LOCALS] || items - locals > LIMITS[SLOTS] {
            return Some(code(1, 0));
        }
        if short {
            return Some(code(7, 0));
        }
        let outside = |row: &[u32]| areas && row[1] != 0 && u64::from(row[2]) + u64::from(row[3]) > self.areas.len() as u64 / 2;
        let bad = self.items.chunks(4).position(|row| row[0] as usize >= cells || outside(row));
        bad.or((cells > items).then_some(items)).map(|index| code(10, index as u32))
    }
}

/// Each query, with indexes up to two past the end; `plan` is what slots.rs has where the plan is a job's.
struct Asked<'a> {
    p: &'a Held,
    plan: Option<&'a Slots>,
    tally: &'a mut Tally,
}

impl Asked<'_> {
    fn told(&mut self, given: u64, wanted: u64, what: &str) {
        assert!(given == wanted, "{what} answers {given:x}, expected {wanted:x}, on {}", cut(self.p));
        self.tally.0[if wanted == ABSENT { Tally::NONE } else { (wanted >> 32) as usize }] += 1;
    }

    fn cell(&mut self, i: u32, slot: bool) {
        let (c, m, locals) = (&self.p.cells, &self.p.items, self.p.locals);
        // SAFETY: here and below each pointer is a slice's, with that slice's length.
        let given = unsafe {
            let query = if slot { slots_slot } else { slots_local };
            query(c.as_ptr(), c.len(), m.as_ptr(), m.len(), locals, i)
        };
        let wanted = self.p.refused(false, false).unwrap_or_else(|| {
            let at = if slot { locals as usize + i as usize } else { i as usize };
            let end = if slot { usize::MAX } else { locals as usize };
            let cell = self.p.rows().get(at).filter(|_| at < end).map(|row| row[0]);
            if let Some(plan) = self.plan {
                let theirs = if slot { plan.slot(i) } else { plan.local(i as usize) };
                assert_eq!(theirs, cell.map(|cell| cell as usize), "the model's cell is not slots.rs's");
            }
            cell.map_or(ABSENT, u64::from)
        });
        self.told(given, wanted, if slot { "slot" } else { "local" });
    }

    fn shared(&mut self, i: u32, room: usize) {
        let (c, m, a, locals) = (&self.p.cells, &self.p.items, &self.p.areas, self.p.locals);
        let mut part = vec![7; room];
        let given = unsafe { slots_shared(c.as_ptr(), c.len(), m.as_ptr(), m.len(), a.as_ptr(), a.len(), locals, i, part.as_mut_ptr(), part.len()) };
        let mut left = vec![7; room];
        let wanted = self.p.refused(true, room < 2).unwrap_or_else(|| {
            let rows = self.p.rows();
            let row = rows.get(i as usize).filter(|row| i < locals && row[1] != 0 && self.p.crowd(row[0]));
            let own = row.map(|row| a.chunks(2).skip(row[2] as usize).take(row[3] as usize).map(|r| (r[0], r[1])).collect::<Vec<_>>());
            if let Some(plan) = self.plan {
                let theirs = plan.shared(i as usize).map(|ranges| touching_joined(ranges).iter().map(|r| (r.start, r.end)).collect::<Vec<_>>());
                assert_eq!(theirs, own, "the model's shared area is not slots.rs's");
            }
            row.map_or(ABSENT, |row| {
                left[..2].copy_from_slice(&[u64::from(row[2]), u64::from(row[3])]);
                0
            })
        });
        assert_eq!(part, left, "shared({i}) of {}", cut(self.p));
        self.told(given, wanted, "shared");
    }

    fn crowded(&mut self, room: usize) {
        let (c, m, locals) = (&self.p.cells, &self.p.items, self.p.locals);
        let mut out = vec![7; room];
        let given = unsafe { slots_crowded(c.as_ptr(), c.len(), m.as_ptr(), m.len(), locals, out.as_mut_ptr(), out.len()) };
        let mut left = vec![7; room];
        let slots = self.p.slots();
        let wanted = self.p.refused(false, room < slots).unwrap_or_else(|| {
            let rows = self.p.rows();
            let own: Vec<u32> = (0..slots as u32).filter(|&s| self.p.crowd(rows[(locals + s) as usize][0])).collect();
            if let Some(plan) = self.plan {
                let mut theirs: Vec<u32> = plan.crowded().into_iter().collect();
                theirs.sort_unstable();
                assert_eq!(theirs, own, "the model's crowded slots are not slots.rs's");
            }
            left[..own.len()].copy_from_slice(&own);
            own.len() as u64
        });
        assert_eq!(out, left, "crowded of {}", cut(self.p));
        self.told(given, wanted, "crowded");
    }

    fn saved(&mut self) {
        let (c, m) = (&self.p.cells, &self.p.items);
        let given = unsafe { slots_saved(c.as_ptr(), c.len(), m.as_ptr(), m.len(), self.p.locals) };
        let wanted = self.p.refused(false, false).unwrap_or_else(|| {
            let own = m.len() / 4 - c.len() / 2;
            assert!(self.plan.map_or(true, |plan| plan.saved() == own), "the model's cells saved are not slots.rs's");
            own as u64
        });
        self.told(given, wanted, "saved");
    }

    fn all(&mut self, r: &mut Random) {
        let (locals, slots) = (self.p.locals.min(200), self.p.slots().min(200) as u32);
        for i in (0..locals + 2).chain([u32::MAX]) {
            self.cell(i, false);
            self.shared(i, if r.one_in(10) { r.below(2) as usize } else { 2 + r.below(2) as usize });
        }
        for i in (0..slots + 2).chain([u32::MAX]) {
            self.cell(i, true);
        }
        self.saved();
        self.crowded(if r.one_in(6) { (slots as usize).saturating_sub(1) } else { self.p.slots() + r.below(2) as usize });
    }
}

/// A field, a cell more or less, a number cut off, another number of locals.
fn damage(r: &mut Random, p: &mut Held) {
    let any = |r: &mut Random| if r.one_in(4) { r.number() } else { r.below(12) };
    match r.below(8) {
        0..=3 if !p.items.is_empty() => {
            let at = r.below(p.items.len() as u32) as usize;
            p.items[at] = any(r);
        }
        4 => p.cells.extend([4, 4].repeat(r.below(4) as usize)),
        5 => drop(p.cells.pop()),
        6 => drop(if r.one_in(2) { p.areas.pop() } else { p.items.pop() }),
        _ => p.locals = any(r),
    }
}

/// A plan of any rows: items of a few cells, parts that overlap, are empty, or end where the list does.
fn made_up(r: &mut Random) -> Held {
    let (items, ranges) = (r.below(8), r.below(6));
    let cells = r.below(items + 1) + u32::from(r.one_in(8));
    let mut p = Held { cells: (0..2 * cells).map(|_| r.below(40)).collect(), items: Vec::new(), areas: (0..2 * ranges).map(|_| r.number()).collect(), locals: r.below(items + 1) };
    for _ in 0..items {
        let first = r.below(ranges + 1);
        let count = r.below(ranges - first + 1) + u32::from(r.one_in(20));
        let past = u32::from(r.one_in(30));
        p.items.extend([r.below((cells + past).max(1)), r.below(3), first, count]);
    }
    p
}

/// Items, locals, slots and ranges at their limits, and one past them.
fn limits(tally: &mut Tally) {
    for (locals, slots, ranges) in [(2048, 2048, 0), (2049, 0, 0), (0, 2049, 0), (3, 0, 65536), (3, 0, 65537), (2048, 2049, 0)] {
        let items: Vec<u32> = (0..locals + slots).flat_map(|i: u32| [i / 2, 1, 0, ranges.min(2)]).collect();
        let p = Held { cells: vec![1; 2 * (locals + slots) as usize], items, areas: vec![9; 2 * ranges as usize], locals };
        Asked { p: &p, plan: None, tally }.all(&mut Random::seeded(1));
    }
}

/// `apart` by slots.rs itself; numbers 1 and 7.
fn apart(r: &mut Random, job: &Job, tally: &mut Tally) {
    let (mut l, mut s) = (job.groups[LOCALS].clone(), job.groups[SLOTS].clone());
    match r.below(40) {
        0 => drop(l.pop()),
        1 => l = [8, 4].repeat(2047 + r.below(3) as usize),
        2 => s = [4].repeat(2047 + r.below(3) as usize),
        _ => (),
    }
    let n = l.len() / 2 + s.len();
    let (cells, items) = (about_rows(r, n, 2), about_rows(r, n, 4));
    let (mut cells, mut items) = (vec![7; cells], vec![7; items]);
    let (mut left, mut rows) = (cells.clone(), items.clone());
    let wanted = if l.len() % 2 != 0 || cells.len() % 2 != 0 || items.len() % 4 != 0 || l.len() / 2 > LIMITS[LOCALS] || s.len() > LIMITS[SLOTS] {
        code(1, 0)
    } else if cells.len() / 2 < n || items.len() / 4 < n {
        code(7, 0)
    } else {
        let locals: Vec<Local> = l.chunks(2).map(|l| Local { size: l[0], align: l[1] }).collect();
        let plan = Slots::apart(&locals, &s);
        left.chunks_mut(2).zip(plan.cells()).for_each(|(row, cell)| row.copy_from_slice(&[cell.size, cell.align]));
        for (i, row) in rows.chunks_mut(4).take(n).enumerate() {
            let own = if i < locals.len() { plan.local(i) } else { plan.slot((i - locals.len()) as u32) };
            row.copy_from_slice(&[own.unwrap() as u32, 0, 0, 0]);
        }
        0
    };
    let given = unsafe { slots_apart(l.as_ptr(), l.len(), s.as_ptr(), s.len(), cells.as_mut_ptr(), cells.len(), items.as_mut_ptr(), items.len()) };
    assert!((given, &cells, &items) == (wanted, &left, &rows), "apart answers {given:x}, expected {wanted:x}, of {l:?} and {s:?}");
    tally.0[(wanted >> 32) as usize] += 1;
}

/// `cap` by slots.rs itself, of the cells of a plan in which nothing is shared, with some rows behind them; number 1.
fn cap(r: &mut Random, job: &Job, tally: &mut Tally) {
    let most = if r.one_in(4) { r.number() } else { 1 << r.below(6) };
    let locals: Vec<Local> = match r.below(40) {
        0 => vec![Local { size: 8, align: 16 }; 4095 + r.below(3) as usize],
        _ => job.rows(LOCALS).map(|l| Local { size: l[0], align: l[1] }).collect(),
    };
    let mut plan = Slots::apart(&locals, &[]);
    let behind = r.below(3) as usize;
    let mut cells: Vec<u32> = locals.iter().flat_map(|l| [l.size, l.align]).chain(vec![7; about_rows(r, behind, 2)]).collect();
    let count = locals.len() as u32 + if r.one_in(6) { r.below(4) } else { 0 };
    let mut left = cells.clone();
    let wanted = if cells.len() % 2 != 0 || count as usize > cells.len() / 2 || count > 4096 {
        code(1, 0)
    } else {
        plan.cap(most);
        left.chunks_mut(2).zip(plan.cells()).for_each(|(row, cell)| row.copy_from_slice(&[cell.size, cell.align]));
        // the rows behind them that are counted too
        left.chunks_mut(2).take(count as usize).skip(locals.len()).for_each(|row| row[1] = row[1].min(most));
        0
    };
    let given = unsafe { slots_cap(cells.as_mut_ptr(), cells.len(), count, most) };
    assert!((given, &cells) == (wanted, &left), "cap to {most} of {count} cells answers {given:x}, expected {wanted:x}, and leaves {cells:?}");
    tally.0[(wanted >> 32) as usize] += 1;
}

pub fn compare(count: u64, seed: u64) {
    let (mut jobs, mut others, mut apart_tally, mut cap_tally) = (Tally::default(), Tally::default(), Tally::default(), Tally::default());
    limits(&mut others);
    let mut sharing = 0;
    for own in seed..seed + count {
        let mut r = Random::seeded(own);
        let job = crate::random::random(&mut r, 6);
        let (plan, theirs) = planned(&job, &areas(&job));
        let mut p = Held { cells: plan.cells, items: plan.items, areas: plan.areas, locals: job.count(LOCALS) as u32 };
        sharing += usize::from(theirs.saved() > 0);
        Asked { p: &p, plan: Some(&theirs), tally: &mut jobs }.all(&mut r);
        (0..1 + r.below(2)).for_each(|_| damage(&mut r, &mut p));
        Asked { p: &p, plan: None, tally: &mut others }.all(&mut r);
        let p = made_up(&mut r);
        Asked { p: &p, plan: None, tally: &mut others }.all(&mut r);
        apart(&mut r, &job, &mut apart_tally);
        cap(&mut r, &job, &mut cap_tally);
    }
    let seeds = format!("seeds {seed} to {}", seed + count - 1);
    jobs.say(&format!("queries of the plans of {count} random jobs, {sharing} with a shared cell, {seeds}"), &[0, 7, Tally::NONE]);
    others.say(&format!("queries of a damaged and a made-up plan each, {seeds}, and of plans at the limits"), &[0, 1, 7, 10, Tally::NONE]);
    apart_tally.say(&format!("apart, {seeds}"), &[0, 1, 7]);
    cap_tally.say(&format!("cap, {seeds}"), &[0, 1]);
}
