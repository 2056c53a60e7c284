//! `carry_tests`: the kinds of all locals, then the registers that carry the address of each.
use crate::cases::{list, Case, Random, Records};
use crate::job::*;
use reference::slots::{probe, reach};
use rucc_base::Interner;
use rucc_mir::{Inst, Reg};
use rucc_target::FrameInsts;

/// One line for the kinds, one for each local and one for the local past the end.
pub fn count(case: &Case) -> usize {
    2 + case.columns[5].len() / 2
}

pub fn mentions(rows: &[u32]) -> Vec<(Inst, usize)> {
    rows.chunks(2).map(|m| (Inst(m[0]), m[1] as usize)).collect()
}

/// The groups that addresses are followed in.
pub const GROUPS: [usize; 7] = [BLOCKS, INSTS, OPERANDS, CROSSINGS, LOCALS, ADDRESSES, ENDS];

/// Of each local that is followed whether it escapes and the registers that carry its address, with these ends.
fn followed(job: &Job, ends: &[(Inst, usize)]) -> Vec<Option<(bool, Vec<Reg>)>> {
    let g = &job.groups;
    let records = Records { v: job.v, points: job.points, blocks: &g[BLOCKS], edges: &[], insts: &g[INSTS], operands: &g[OPERANDS], crossings: &g[CROSSINGS] };
    probe::followed(&reach(&records.func(), &mentions(&g[ADDRESSES]), ends, job.count(LOCALS), &FrameInsts::default(), &mut Interner))
}

/// 0 for an unfollowed local, 1 for a plain one, 2 for an ending one.
pub fn kinds(job: &Job) -> Vec<u32> {
    followed(job, &mentions(&job.groups[ENDS])).iter().map(|held| held.as_ref().map_or(0, |held| 1 + u32::from(held.0))).collect()
}

/// The registers that carry each local's address, rising, as far as slots.rs says: it keeps none of a local that is not followed; of one that escapes it does where the
/// local has an end, so each is given one.
pub fn registers(job: &Job) -> Vec<Option<Vec<u32>>> {
    let mut ends = mentions(&job.groups[ENDS]);
    if let Some(placed) = job.rows(INSTS).position(|row| row[0] == 1) {
        ends.extend((0..job.count(LOCALS)).map(|local| (Inst(placed as u32), local)));
    }
    let numbers = |registers: &Vec<Reg>| -> Vec<u32> {
        let mut numbers: Vec<u32> = registers.iter().map(|r| r.number().unwrap()).collect();
        numbers.sort_unstable();
        numbers.dedup();
        numbers
    };
    followed(job, &ends).iter().map(|held| held.as_ref().map(|(_, registers)| numbers(registers))).collect()
}

fn job(c: &[Vec<u32>]) -> Job {
    let mut job = Job { points: c[0][0], v: c[0][1], ..Job::default() };
    GROUPS.iter().zip(&c[1..]).for_each(|(&group, column)| job.groups[group] = column.clone());
    job
}

pub fn lines(case: &Case) -> Vec<Option<String>> {
    let (job, room) = (job(&case.columns), case.columns[0][2] as usize);
    let (locals, words) = (job.count(LOCALS), space(&job, 0));
    let mut lines = vec![Some(format!("{} reach {locals}:{} | {words}", case.name, list(&kinds(&job), room)))];
    for (local, numbers) in registers(&job).iter().enumerate() {
        lines.push(numbers.as_ref().map(|numbers| format!(" carried({local}) {}:{} | {words}", numbers.len(), list(numbers, room))));
    }
    lines.push(Some(format!(" carried({locals}) absent:{} | {words}", list(&[], room))));
    lines
}

/// An instruction: two in five a `lea` with its one def, one in five a load, the others anything; in calm code three of five have no operands.
fn inst(r: &mut Random, v: u32, blocks: &[u32], calm: bool, insts: &mut Vec<u32>, operands: &mut Vec<u32>) {
    let register = |r: &mut Random| if r.one_in(12) { v + r.below(256) } else { v - 1 - r.below(v.min(5)) };
    let position = |r: &mut Random| if r.one_in(4) { 256 } else { r.below(4) };
    let (own, [lea, mem, base, index]) = match r.below(5) {
        2..=4 if calm => (Vec::new(), [0, 0, 256, 256]),
        0 | 1 => (vec![1, register(r), 0, register(r)], [1, 1, 1, 256]),
        2 => (vec![0, register(r)], [0, 1, 0, 256]),
        _ => {
            let own = (0..r.below(4)).flat_map(|_| [u32::from(r.one_in(3)), register(r)]).collect();
            (own, [r.below(2), u32::from(!r.one_in(4)), position(r), position(r)])
        }
    };
    let placed = u32::from(!r.one_in(6));
    let (block, early, late) = r.spot(blocks);
    insts.extend([placed, block, early, late, lea, mem, base, index, own.len() as u32 / 2]);
    operands.extend(own);
}

/// The records that addresses are followed in.
pub struct Code {
    pub calm: bool,
    pub v: u32,
    pub points: u32,
    pub blocks: Vec<u32>,
    pub insts: Vec<u32>,
    pub operands: Vec<u32>,
    pub crossings: Vec<u32>,
    pub locals: u32,
    pub addresses: Vec<u32>,
    pub ends: Vec<u32>,
}

impl Code {
    /// Up to 5 locals in up to 11 instructions: small enough that every rule is met often. One in two is calm code, in which most locals are plain and many share.
    pub fn random(r: &mut Random, most: u32) -> Self {
        let calm = r.one_in(2);
        let v = if r.one_in(8) { 60 + r.below(10) } else { 1 + r.below(5) };
        let (blocks, points) = r.line(most);
        let (mut insts, mut operands) = (Vec::new(), Vec::new());
        for _ in 0..if calm { 4 + r.below(8) } else { r.below(12) } {
            inst(r, v, &blocks, calm, &mut insts, &mut operands);
        }
        let crossings = (0..r.below(6).saturating_sub(3)).map(|_| r.below(v + 2)).collect();
        let locals = if calm { 2 + r.below(4) } else { r.below(6) };
        let mut code = Self { calm, v, points, blocks, insts, operands, crossings, locals, addresses: Vec::new(), ends: Vec::new() };
        let (all, placed) = ((0..code.insts.len() as u32 / 9).collect::<Vec<_>>(), code.placed());
        let leas: Vec<u32> = placed.iter().copied().filter(|&i| code.insts[9 * i as usize + 4] == 1).collect();
        let plain: Vec<u32> = placed.iter().copied().filter(|&i| code.insts[9 * i as usize + 4] == 0).collect();
        let among = if calm { &plain } else if r.one_in(3) { &placed } else { &leas };
        code.addresses = some(r, among, locals);
        code.ends = some(r, &all, locals);
        code
    }

    pub fn placed(&self) -> Vec<u32> {
        (0..self.insts.len() as u32 / 9).filter(|&i| self.insts[9 * i as usize] == 1).collect()
    }
}

/// Up to 7 rows of one of these instructions and a local, or one past the end.
fn some(r: &mut Random, among: &[u32], locals: u32) -> Vec<u32> {
    let count = if among.is_empty() { 0 } else { r.below(8) };
    (0..count).flat_map(|_| [among[r.below(among.len() as u32) as usize], r.below(locals + 1)]).collect()
}

pub fn random(r: &mut Random) -> String {
    let c = Code::random(r, 3);
    let mut columns = vec![vec![c.points, c.v, 12, 0], c.blocks, c.insts, c.operands, c.crossings, vec![8; 2 * c.locals as usize], c.addresses, c.ends];
    columns[0][3] = space(&job(&columns), 0) as u32 + 1;
    Case::write("random", &columns)
}
