//! Fitting alone.
use crate::entries;
use crate::timing::{once, row, timed, Random};
use crate::whole::Lists;
use reference::slots::probe;
use rucc_regalloc::live::Range;

struct Wants {
    rows: Vec<u32>,
    areas: Vec<u32>,
    lent: Vec<(u32, u32, Option<Vec<Range>>)>,
}

fn wants(list: Vec<(u32, u32, Option<Vec<(u32, u32)>>)>) -> Wants {
    let (mut rows, mut areas, mut lent) = (Vec::new(), Vec::new(), Vec::new());
    for (size, align, area) in list {
        let first = areas.len() as u32 / 2;
        let count = area.as_ref().map_or(0, Vec::len) as u32;
        rows.extend([size, align, area.is_some() as u32, first, count]);
        lent.push((size, align, area.as_ref().map(|a| a.iter().map(|&(start, end)| Range { start, end }).collect())));
        for (start, end) in area.into_iter().flatten() {
            areas.extend([start, end]);
        }
    }
    Wants { rows, areas, lent }
}

fn time(name: &str, w: &Wants, budget: u32) {
    let n = w.lent.len();
    let mut lists = Lists::new(n, 0, 8 * (n + w.areas.len() / 2));
    assert_eq!(entries::fit_wants(&w.rows, &w.areas, 0, budget, &mut lists), 0);
    let plan = probe::fit(w.lent.clone(), 0, budget as usize);
    let cells = lists.hold_cells(&plan, name);
    for i in 0..n {
        assert_eq!(plan.slot(i as u32), Some(lists.items[4 * i] as usize));
    }
    let name = format!("fit, {name}: {n} to {cells} cells");
    row(
        &name,
        &mut || {
            // slots.rs takes its wants by value
            let lent = w.lent.clone();
            once(|| probe::fit(lent, 0, budget as usize))
        },
        &mut || timed(|| entries::fit_wants(&w.rows, &w.areas, 0, budget, &mut lists)),
    );
}

/// Areas of `pieces` ranges each, of some points, within `points`.
fn scattered(r: &mut Random, n: usize, pieces: u64, length: u64, points: u64) -> Wants {
    let list = (0..n).map(|_| {
        let count = 1 + r.below(2 * pieces - 1);
        let mut at = r.below(points);
        let mut area = Vec::new();
        for _ in 0..count {
            let end = at + r.below(length);
            area.push((at as u32, end as u32));
            at = end + 2 + r.below(length);
        }
        let size = 1 << r.below(4);
        (size, size, Some(area))
    }).collect();
    wants(list)
}

pub fn run() {
    let mut r = Random(0x2545_f491_4f6c_dd1d);
    time("typical", &scattered(&mut r, 30, 2, 40, 400), 1_048_576);
    time("many slots", &scattered(&mut r, 2040, 3, 60, 12_000), 1_048_576);
    let all = (0..2048).map(|i| (8, 8, Some(vec![(i, 5_000 + i)]))).collect();
    time("all clash", &wants(all), 1_048_576);
    time("65,000 ranges", &scattered(&mut r, 1000, 33, 20, 100_000), 1_048_576);
}
