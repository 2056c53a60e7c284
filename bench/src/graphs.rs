//! `flowed` and `spread` on the largest graphs: 4,096 blocks, 16,384 edges, rows of 32 words. Both sides begin with the records of blocks and edges; slots.rs's functions
//! are also timed alone, with the lists of the edges, which its `areas` makes first, lent to them.
use crate::entries;
use crate::timing::{row, timed, Random};
use reference::slots::probe;

const BLOCKS: usize = 4096;
const EDGES: usize = 16384;
const WORDS: usize = 32;

struct Graph {
    blocks: Vec<u32>,
    edges: Vec<u32>,
    ahead: Vec<Vec<usize>>,
    behind: Vec<Vec<usize>>,
}

/// The edges by place, as slots.rs's `areas` makes them, from the records: to where each place's edges lead, or from where they come.
fn listed(blocks: &[u32], edges: &[u32], over: u32) -> Vec<Vec<usize>> {
    let mut place = vec![0usize; blocks.len() / 3];
    for (at, block) in blocks.chunks(3).enumerate() {
        place[block[0] as usize] = at;
    }
    let mut lists = vec![Vec::new(); blocks.len() / 3];
    for edge in edges.chunks(2) {
        let (from, to) = (place[edge[0] as usize], place[edge[1] as usize]);
        if over == 0 {
            lists[to].push(from);
        } else {
            lists[from].push(to);
        }
    }
    lists
}

/// Block k has the number k and two points.
fn graph(edges: Vec<(usize, usize)>) -> Graph {
    let mut blocks = Vec::new();
    for k in 0..BLOCKS as u32 {
        blocks.extend([k, 2 * k, 2 * k + 1]);
    }
    let rows: Vec<u32> = edges.iter().flat_map(|&(a, b)| [a as u32, b as u32]).collect();
    let (behind, ahead) = (listed(&blocks, &rows, 0), listed(&blocks, &rows, 1));
    Graph { blocks, edges: rows, ahead, behind }
}

/// Rows with a bit in `one_in` set.
fn rows(r: &mut Random, one_in: u64) -> Vec<u64> {
    let mut rows = vec![0u64; BLOCKS * WORDS];
    for word in rows.iter_mut() {
        for bit in 0..64 {
            if r.below(one_in) == 0 {
                *word |= 1 << bit;
            }
        }
    }
    rows
}

fn parted(rows: &[u64]) -> Vec<Vec<u64>> {
    rows.chunks(WORDS).map(<[u64]>::to_vec).collect()
}

fn time_flowed(name: &str, g: &Graph, touched: &[u64]) {
    let lent = parted(touched);
    let mut out = vec![0u64; BLOCKS * WORDS];
    let mut work = vec![0u64; 8 * (BLOCKS + g.edges.len() / 2 + BLOCKS * WORDS)];
    for (over, edges, what) in [(0, &g.behind, "predecessors"), (1, &g.ahead, "successors")] {
        assert_eq!(entries::flowed(over, &g.blocks, &g.edges, 2 * BLOCKS as u32, touched, WORDS, &mut out, &mut work), 0);
        assert_eq!(parted(&out), probe::flowed(edges, &lent, WORDS));
        let mut component = || timed(|| entries::flowed(over, &g.blocks, &g.edges, 2 * BLOCKS as u32, touched, WORDS, &mut out, &mut work));
        row(
            &format!("flowed {what}, {name}"),
            &mut || timed(|| probe::flowed(&listed(&g.blocks, &g.edges, over), &lent, WORDS)),
            &mut component,
        );
        row("  with the edges' lists lent", &mut || timed(|| probe::flowed(edges, &lent, WORDS)), &mut component);
    }
}

fn time_spread(name: &str, g: &Graph, leaves: &[u64], passes: &[u64]) {
    let (one, two) = (parted(leaves), parted(passes));
    let mut out = vec![0u64; BLOCKS * WORDS];
    let mut work = vec![0u64; 8 * (BLOCKS + g.edges.len() / 2 + BLOCKS * WORDS)];
    assert_eq!(entries::spread(&g.blocks, &g.edges, 2 * BLOCKS as u32, leaves, passes, WORDS, &mut out, &mut work), 0);
    assert_eq!(parted(&out), probe::spread(&g.behind, &one, &two, WORDS));
    let mut component = || timed(|| entries::spread(&g.blocks, &g.edges, 2 * BLOCKS as u32, leaves, passes, WORDS, &mut out, &mut work));
    row(
        &format!("spread, {name}"),
        &mut || timed(|| probe::spread(&listed(&g.blocks, &g.edges, 0), &one, &two, WORDS)),
        &mut component,
    );
    row("  with the edges' lists lent", &mut || timed(|| probe::spread(&g.behind, &one, &two, WORDS)), &mut component);
}

/// All that an area asks of the graph in one run: `flowed` both ways and `spread`, from the records.
fn time_all(name: &str, g: &Graph, touched: &[u64], passes: &[u64]) {
    let (one, two) = (parted(touched), parted(passes));
    let mut out = vec![0u64; BLOCKS * WORDS];
    let mut work = vec![0u64; 8 * (BLOCKS + g.edges.len() / 2 + 2 * BLOCKS * WORDS)];
    let points = 2 * BLOCKS as u32;
    row(
        &format!("flowed both ways, spread, {name}"),
        &mut || {
            timed(|| {
                let (behind, ahead) = (listed(&g.blocks, &g.edges, 0), listed(&g.blocks, &g.edges, 1));
                (probe::flowed(&behind, &one, WORDS), probe::flowed(&ahead, &one, WORDS), probe::spread(&behind, &one, &two, WORDS))
            })
        },
        &mut || {
            timed(|| {
                let a = entries::flowed(0, &g.blocks, &g.edges, points, touched, WORDS, &mut out, &mut work);
                let b = entries::flowed(1, &g.blocks, &g.edges, points, touched, WORDS, &mut out, &mut work);
                let c = entries::spread(&g.blocks, &g.edges, points, touched, passes, WORDS, &mut out, &mut work);
                (a, b, c)
            })
        },
    );
}

pub fn run() {
    let mut r = Random(0x9e37_79b9_7f4a_7c15);
    let any = |r: &mut Random| (0..EDGES).map(|_| (r.below(BLOCKS as u64) as usize, r.below(BLOCKS as u64) as usize)).collect::<Vec<_>>();
    // edges forward, a few far; back edges close by; as compilers lay code out
    let near = |r: &mut Random| {
        (0..EDGES).map(|i| {
            let a = i % BLOCKS;
            let far = 1 + r.below(if i % 7 == 0 { 200 } else { 4 }) as usize;
            if i % 9 == 0 { (a, a.saturating_sub(far)) } else { (a, (a + far).min(BLOCKS - 1)) }
        }).collect::<Vec<_>>()
    };
    let chain = || (1..BLOCKS).map(|a| (a, a - 1)).collect::<Vec<_>>();
    let two_way = || (1..BLOCKS).flat_map(|a| [(a, a - 1), (a - 1, a)]).collect::<Vec<_>>();
    let mut ring = chain();
    ring.push((0, BLOCKS - 1));
    for (name, edges) in [("any edges", any(&mut r)), ("near edges", near(&mut r)), ("chain against its edges", chain()), ("two-way chain", two_way()), ("ring", ring)] {
        let g = graph(edges);
        let touched = rows(&mut r, 2048);
        let passes = rows(&mut r, 2).iter().zip(rows(&mut r, 8)).map(|(a, b)| a | b).collect::<Vec<_>>();
        time_all(name, &g, &touched, &passes);
        time_flowed(name, &g, &touched);
        time_spread(name, &g, &touched, &passes);
        let open = vec![!0u64; BLOCKS * WORDS];
        time_spread(&format!("{name}, nothing stops"), &g, &touched, &open);
    }
}
