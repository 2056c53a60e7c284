//! The areas of locals whose touches and ends are lent by themselves: `local_areas`, and what `area_tests` prints of it.
use crate::cases::{list, Case, Random, Records};
use crate::job::{BLOCKS, EDGES};
use crate::plans::rows;
use reference::slots::probe;
use rucc_mir::{Inst, Reg};
use rucc_regalloc::live::{Area, Live, Range};

/// Blocks, edges, a kind for each local (0 unfollowed, 1 plain, 2 ending), touches (local, start, end) and ends (local, point).
#[derive(Clone, Debug)]
pub struct Lent {
    pub points: u32,
    pub groups: [Vec<u32>; 5],
}

pub const KINDS: usize = 2;
pub const TOUCHES: usize = 3;
pub const ENDS: usize = 4;
pub const WIDTHS: [usize; 5] = [3, 2, 1, 3, 2];

impl Lent {
    pub fn rows(&self, group: usize) -> std::slice::Chunks<'_, u32> {
        self.groups[group].chunks(WIDTHS[group])
    }

    pub fn count(&self, group: usize) -> usize {
        self.groups[group].len() / WIDTHS[group]
    }

    pub fn locals(&self) -> usize {
        self.groups[KINDS].len()
    }

    /// W, with an area list of that many numbers.
    pub fn space(&self, areas: usize) -> usize {
        let records: usize = (0..5).map(|group| self.count(group)).sum();
        8 * (records + self.count(BLOCKS) * self.locals().div_ceil(64) + areas / 2)
    }

    /// The number of the block with that point.
    fn holding(&self, point: u32) -> Option<u32> {
        self.rows(BLOCKS).find(|b| b[1] <= point && point <= b[2]).map(|b| b[0])
    }

    /// The area of each local. Each end is an instruction, unplaced where it is in no block; register k has the touches of local k.
    pub fn areas(&self) -> Vec<Option<Vec<Range>>> {
        let insts: Vec<u32> = self.rows(ENDS).flat_map(|end| {
            let block = self.holding(end[1]);
            [u32::from(block.is_some()), block.unwrap_or(0), end[1], end[1], 0, 0, 256, 256, 0]
        }).collect();
        let count = self.locals();
        let records = Records { v: count as u32, points: self.points, blocks: &self.groups[BLOCKS], edges: &self.groups[EDGES], insts: &insts, operands: &[], crossings: &[] };
        let mut live = Live(vec![Area::default(); count]);
        for touch in self.rows(TOUCHES).filter(|touch| (touch[0] as usize) < count) {
            live.0[touch[0] as usize].0.push(Range { start: touch[1], end: touch[2] });
        }
        let locals = self.groups[KINDS].iter().enumerate().map(|(local, &kind)| {
            let ends = self.rows(ENDS).enumerate().filter(|(_, end)| end[0] as usize == local).map(|(i, _)| Inst(i as u32));
            (kind != 0).then(|| (kind == 2, vec![Reg::Numbered(local as u32)], ends.collect()))
        }).collect();
        probe::areas(&records.func(), locals, &live, &records.order())
    }
}

/// The case of a test program: points, the lengths of the area list, of the item list and of the work space; then the groups.
pub fn lines(case: &Case) -> Vec<Option<String>> {
    let (head, groups) = (&case.columns[0], std::array::from_fn(|group| case.columns[1 + group].clone()));
    let lent = Lent { points: head[0], groups };
    let [ranges, items] = rows(&lent.areas());
    let (given, told) = (list(&ranges, head[1] as usize), list(&items, head[2] as usize));
    vec![Some(format!("{} {}:{given} |{told} | {}", case.name, ranges.len() / 2, lent.space(head[1] as usize)))]
}

/// A touch in the line: of one spot, from a spot to another, or from the first or to the last point of all.
fn touch(r: &mut Random, blocks: &[u32]) -> [u32; 2] {
    let (_, start, end) = r.spot(blocks);
    let (_, other, far) = r.spot(blocks);
    let (low, high) = (blocks[1], blocks[blocks.len() - 1]);
    match r.below(8) {
        0 => [low, end],
        1 => [start, high],
        2 | 3 => [start.min(other), end.max(far)],
        _ => [start, end],
    }
}

/// Up to 5 locals over up to 6 blocks, now and then more than a word has bits.
pub fn some(r: &mut Random) -> Lent {
    let (blocks, points) = r.line(6);
    let count = blocks.len() as u32 / 3;
    let edges: Vec<u32> = (0..r.below(2 * count + 1)).flat_map(|_| [r.below(count), r.below(count)]).collect();
    let locals = if r.one_in(20) { 60 + r.below(10) } else { 1 + r.below(5) };
    let kinds: Vec<u32> = (0..locals).map(|_| if r.one_in(6) { 0 } else { 1 + r.below(2) }).collect();
    // rows of the last locals, and of one past them
    let local = |r: &mut Random| locals - r.below(locals.min(5) + 1);
    let touches: Vec<u32> = (0..r.below(10)).flat_map(|_| {
        let [start, end] = touch(r, &blocks);
        [local(r), start, end]
    }).collect();
    let ends: Vec<u32> = (0..r.below(8)).flat_map(|_| [local(r), r.below(points + 3)]).collect();
    Lent { points, groups: [blocks, edges, kinds, touches, ends] }
}

pub fn random(r: &mut Random) -> String {
    let lent = some(r);
    let head = vec![lent.points, 80, 3 * lent.locals() as u32 + 3, lent.space(80) as u32 + 1];
    let columns: Vec<Vec<u32>> = std::iter::once(head).chain(lent.groups).collect();
    Case::write("random", &columns)
}
