//! The entries of the graph: `components`, `settling`, `flowed` and `spread`.
use crate::calls::{about, Called, Room, Wanted};
use crate::cases::Random;
use crate::job::{space, Job, BLOCKS, EDGES};
use crate::refusals;
use reference::slots::probe;

extern "C" {
    fn slots_components(
        blocks: *const u32, blocks_len: usize, edges: *const u32, edges_len: usize, points: u32, which: *mut u32, which_len: usize, work: *mut u64, work_len: usize,
    ) -> u64;
    fn slots_settling(
        blocks: *const u32, blocks_len: usize, edges: *const u32, edges_len: usize, points: u32, order: *mut u32, order_len: usize, work: *mut u64, work_len: usize,
    ) -> u64;
    fn slots_flowed(
        over: u32, blocks: *const u32, blocks_len: usize, edges: *const u32, edges_len: usize, points: u32, touched: *const u64, touched_len: usize, words: usize,
        out: *mut u64, out_len: usize, work: *mut u64, work_len: usize,
    ) -> u64;
    fn slots_spread(
        blocks: *const u32, blocks_len: usize, edges: *const u32, edges_len: usize, points: u32, leaves: *const u64, leaves_len: usize,
        passes: *const u64, passes_len: usize, words: usize, out: *mut u64, out_len: usize, work: *mut u64, work_len: usize,
    ) -> u64;
}

/// The successors and the predecessors of each place, as slots.rs lists them.
fn neighbours(job: &Job) -> [Vec<Vec<usize>>; 2] {
    let count = job.count(BLOCKS);
    let (mut place, mut ahead, mut behind) = (vec![0; count], vec![Vec::new(); count], vec![Vec::new(); count]);
    job.rows(BLOCKS).enumerate().for_each(|(at, block)| place[block[0] as usize] = at);
    for (at, block) in job.rows(BLOCKS).enumerate() {
        for edge in job.rows(EDGES).filter(|edge| edge[0] == block[0]) {
            ahead[at].push(place[edge[1] as usize]);
            behind[place[edge[1] as usize]].push(at);
        }
    }
    [ahead, behind]
}

/// The numbers of the components are free: places have the same number exactly where slots.rs has them in one component, and an edge that leaves one enters a lower-numbered one.
fn numbered(job: &Job, given: &[u32]) -> usize {
    let [ahead, _] = neighbours(job);
    let (which, pieces) = probe::components(&ahead);
    assert_eq!(given.len(), which.len());
    for (one, &number) in given.iter().enumerate() {
        assert!((number as usize) < pieces.len(), "no such component: {given:?} on {job:?}");
        for (two, &other) in given.iter().enumerate() {
            assert_eq!(number == other, which[one] == which[two], "places {one} and {two}: {given:?} on {job:?}");
        }
        assert!(ahead[one].iter().all(|&to| given[to] <= number), "an edge leaves place {one} upwards: {given:?} on {job:?}");
    }
    pieces.len()
}

const GROUPS: [usize; 2] = [BLOCKS, EDGES];

fn graph(r: &mut Random) -> Job {
    let most = [4, 6, 12, 40][r.below(4) as usize];
    crate::random::records(r, most, &GROUPS, false)
}

fn components_of(job: &Job, room: Room) -> usize {
    let (b, e) = (&job.groups[BLOCKS], &job.groups[EDGES]);
    let short = [room.lists[0].len() < job.count(BLOCKS), room.work.len() < space(job, 0)];
    // SAFETY: here and below each pointer is a slice's, with that slice's length.
    let called = Called::new(room, |l| unsafe {
        slots_components(b.as_ptr(), b.len(), e.as_ptr(), e.len(), job.points, l.lists[0].as_mut_ptr(), l.lists[0].len(), l.work.as_mut_ptr(), l.work.len())
    });
    let wanted = match refusals::records(job, false).or_else(|| refusals::space(&short)) {
        Some((number, index)) => Wanted::Refused(number, index),
        None => {
            let given = called.after.front(0, job.count(BLOCKS));
            Wanted::Given(numbered(job, &given) as u64, vec![given], Vec::new())
        }
    };
    called.hold(wanted, space(job, 0), job)
}

fn settling_of(job: &Job, room: Room) -> usize {
    let (b, e) = (&job.groups[BLOCKS], &job.groups[EDGES]);
    let short = [room.lists[0].len() < job.count(BLOCKS), room.work.len() < space(job, 0)];
    let called = Called::new(room, |l| unsafe {
        slots_settling(b.as_ptr(), b.len(), e.as_ptr(), e.len(), job.points, l.lists[0].as_mut_ptr(), l.lists[0].len(), l.work.as_mut_ptr(), l.work.len())
    });
    let wanted = match refusals::records(job, false).or_else(|| refusals::space(&short)) {
        Some((number, index)) => Wanted::Refused(number, index),
        None => {
            let order = probe::settling(&neighbours(job)[0]);
            Wanted::Given(0, vec![order.iter().map(|&at| at as u32).collect()], Vec::new())
        }
    };
    called.hold(wanted, space(job, 0), job)
}

fn room(r: &mut Random, job: &Job) -> Room {
    let (list, work) = (about(r, job.count(BLOCKS)), about(r, space(job, 0)));
    Room::any(r, &[list], 0, work)
}

pub fn components(r: &mut Random) -> usize {
    let job = graph(r);
    components_of(&job, room(r, &job))
}

pub fn settling(r: &mut Random) -> usize {
    let job = graph(r);
    settling_of(&job, room(r, &job))
}

/// Rows of bits over the places: one to a block, but for one in thirty.
fn rows(r: &mut Random, job: &Job, words: usize) -> Vec<u64> {
    let needed = job.count(BLOCKS) * words;
    let count = if r.one_in(30) { about(r, needed) } else { needed };
    let thin = r.one_in(2);
    (0..count).map(|_| if thin { r.word() & r.word() & r.word() } else { r.word() }).collect()
}

/// What rows that are lent are refused for, and W. A list that is no row of `words` words for each block is refused with 1.
fn rows_refused(job: &Job, lent: &[&[u64]], words: usize, room: &Room) -> (Option<(u32, u32)>, usize) {
    let needed = job.count(BLOCKS) * words;
    let w = space(job, 0) + 8 * needed;
    let short = [room.rows.len() < needed, room.work.len() < w];
    (refusals::records(job, lent.iter().any(|rows| rows.len() != needed)).or_else(|| refusals::space(&short)), w)
}

fn row_room(r: &mut Random, job: &Job, words: usize) -> Room {
    let needed = job.count(BLOCKS) * words;
    let (rows, work) = (about(r, needed), about(r, space(job, 0) + 8 * needed));
    Room::any(r, &[], rows, work)
}

fn chunks(job: &Job, rows: &[u64], words: usize) -> Vec<Vec<u64>> {
    (0..job.count(BLOCKS)).map(|at| rows[at * words..(at + 1) * words].to_vec()).collect()
}

pub fn flowed(r: &mut Random) -> usize {
    let (job, words, over) = (graph(r), r.below(4) as usize, r.below(3));
    let touched = rows(r, &job, words);
    let (b, e) = (&job.groups[BLOCKS], &job.groups[EDGES]);
    let room = row_room(r, &job, words);
    let (refused, w) = rows_refused(&job, &[&touched], words, &room);
    let called = Called::new(room, |l| unsafe {
        slots_flowed(
            over, b.as_ptr(), b.len(), e.as_ptr(), e.len(), job.points, touched.as_ptr(), touched.len(), words,
            l.rows.as_mut_ptr(), l.rows.len(), l.work.as_mut_ptr(), l.work.len(),
        )
    });
    let wanted = refused.map_or_else(
        || Wanted::Given(0, Vec::new(), probe::flowed(&neighbours(&job)[usize::from(over == 0)], &chunks(&job, &touched, words), words).concat()),
        |(number, index)| Wanted::Refused(number, index),
    );
    called.hold(wanted, w, &(&job, over, touched, words))
}

pub fn spread(r: &mut Random) -> usize {
    let (job, words) = (graph(r), r.below(4) as usize);
    let (leaves, passes) = (rows(r, &job, words), rows(r, &job, words));
    let (b, e) = (&job.groups[BLOCKS], &job.groups[EDGES]);
    let room = row_room(r, &job, words);
    let (refused, w) = rows_refused(&job, &[&leaves, &passes], words, &room);
    let called = Called::new(room, |l| unsafe {
        slots_spread(
            b.as_ptr(), b.len(), e.as_ptr(), e.len(), job.points, leaves.as_ptr(), leaves.len(), passes.as_ptr(), passes.len(), words,
            l.rows.as_mut_ptr(), l.rows.len(), l.work.as_mut_ptr(), l.work.len(),
        )
    });
    let wanted = refused.map_or_else(
        || Wanted::Given(0, Vec::new(), probe::spread(&neighbours(&job)[1], &chunks(&job, &leaves, words), &chunks(&job, &passes, words), words).concat()),
        |(number, index)| Wanted::Refused(number, index),
    );
    called.hold(wanted, w, &(&job, leaves, passes, words))
}

/// All graphs of up to four blocks, the edges rising and falling, the blocks numbered in some order.
pub fn small() {
    let mut calls = 0;
    for count in 1..=4u32 {
        for graph in 0..1u32 << (count * count) {
            let mut r = Random::seeded(u64::from(graph));
            let mut numbers: Vec<u32> = (0..count).collect();
            numbers.rotate_left(r.below(count) as usize);
            if r.one_in(2) {
                numbers.reverse();
            }
            let mut edges: Vec<[u32; 2]> = (0..count * count).filter(|e| graph >> e & 1 == 1).map(|e| [e / count, e % count]).collect();
            for _ in 0..2 {
                let mut job = Job { points: count, ..Job::default() };
                job.groups[BLOCKS] = numbers.iter().enumerate().flat_map(|(at, &number)| [number, at as u32, at as u32]).collect();
                job.groups[EDGES] = edges.concat();
                for call in [components_of, settling_of] {
                    assert_eq!(call(&job, Room::any(&mut r, &[count as usize], 0, space(&job, 0))), 0);
                    calls += 1;
                }
                edges.reverse();
            }
        }
    }
    println!("components and settling, all graphs of up to 4 blocks, the edges in two orders: {calls} calls, no difference");
}
