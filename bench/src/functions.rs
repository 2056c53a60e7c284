//! A made-up function of given counts, as the rows of a job.
use crate::jobs::Job;
use crate::timing::Random;

/// No slot, and no position of a base or an index.
pub const NONE: u32 = u32::MAX;
pub const NOWHERE: u32 = 256;

/// What `Slots::share` of slots.rs fixes it at.
const BUDGET: u32 = 1_048_576;

/// How the blocks follow each other.
#[derive(Clone, Copy, PartialEq)]
pub enum Flow {
    /// As compilers lay code out: mostly to the next block, some branches ahead, a few loops.
    Line,
    /// The same in runs of some blocks, each reached from one block and leading back to it.
    Dispatch,
    /// Each block leads to the one before it in line.
    Against,
}

/// The counts of a function. Locals and slots live within `reach` blocks of where they begin, one slot in eight lives on in more places.
#[derive(Clone, Copy)]
pub struct Shape {
    pub name: &'static str,
    pub flow: Flow,
    pub blocks: u32,
    /// The fewest edges.
    pub edges: u32,
    /// Instructions a block, on average.
    pub insts: u32,
    pub locals: u32,
    /// Of eight locals, how many are handed on and have ends.
    pub ending: u32,
    pub slots: u32,
    /// Registers that are neither spilled nor hold an address.
    pub others: u32,
    pub reach: u32,
    /// The most registers that an instruction reads.
    pub uses: u32,
}

#[derive(Clone, Default)]
struct Inst {
    block: u32,
    early: u32,
    lea: u32,
    mem: u32,
    base: u32,
    operands: Vec<(u32, u32)>,
    taken: bool,
}

struct Maker {
    r: Random,
    shape: Shape,
    job: Job,
    insts: Vec<Inst>,
    /// The first instruction of each block, and one past the last.
    firsts: Vec<u32>,
    /// Where the edges of each block lead.
    ahead: Vec<Vec<u32>>,
    /// Each register's live pieces.
    live: Vec<Vec<(u32, u32)>>,
}

impl Maker {
    fn below(&mut self, n: u32) -> u32 {
        self.r.below(u64::from(n)) as u32
    }

    fn register(&mut self) -> u32 {
        self.live.push(Vec::new());
        self.live.len() as u32 - 1
    }

    /// Blocks and their instructions, two points each, with a point at the block's top and one at its bottom.
    fn line(&mut self) {
        let mut point = 0;
        for block in 0..self.shape.blocks {
            self.firsts.push(self.insts.len() as u32);
            let count = 2 + self.below(2 * self.shape.insts - 3);
            self.job.blocks.extend([block, point, point + 2 * count + 1]);
            for k in 0..count {
                self.insts.push(Inst { block, early: point + 1 + 2 * k, base: NOWHERE, ..Inst::default() });
            }
            point += 2 * count + 2;
        }
        self.firsts.push(self.insts.len() as u32);
        self.job.points = point;
    }

    fn edge(&mut self, from: u32, to: u32) {
        self.job.edges.extend([from, to]);
        self.ahead[from as usize].push(to);
    }

    fn edges(&mut self) {
        let n = self.shape.blocks;
        if self.shape.flow == Flow::Against {
            return (1..n).for_each(|b| self.edge(b, b - 1));
        }
        let mut next = 2;
        for b in 0..n - 1 {
            if self.shape.flow == Flow::Dispatch && b + 1 == next {
                // block 1 leads to every run, and a run's last block back to it; one in 16 leaves the function
                if b > 1 && self.below(16) > 0 {
                    self.edge(b, 1);
                }
                self.edge(1, next);
                next += 3 + self.below(12);
            } else {
                self.edge(b, b + 1);
            }
            if self.below(2) == 0 {
                let to = (b + 1 + self.below(9)).min(n - 1);
                self.edge(b, to);
            } else if self.below(5) == 0 {
                let to = b - self.below(9).min(b);
                self.edge(b, to);
            }
        }
        while (self.job.edges.len() as u32) < 2 * self.shape.edges {
            let from = self.below(n);
            let to = (from + self.below(16)).min(n - 1);
            self.edge(from, to);
        }
    }

    /// An instruction of the block that nothing was made of yet, at or after the one at `from`. The last one is the branch.
    fn take(&mut self, block: u32, from: u32) -> Option<u32> {
        let (first, end) = (self.firsts[block as usize], self.firsts[block as usize + 1] - 1);
        let at = (first.max(from)..end).find(|&i| !self.insts[i as usize].taken)?;
        self.insts[at as usize].taken = true;
        Some(at)
    }

    /// A block at or after that one, within the reach.
    fn near(&mut self, block: u32) -> u32 {
        (block + self.below(self.shape.reach)).min(self.shape.blocks - 1)
    }

    /// A register that holds the local's address in one block: a `lea`, its readers, now and then one that hands the address on or another `lea`.
    fn address(&mut self, local: u32, block: u32, escapes: bool) {
        let Some(at) = self.take(block, 0) else { return };
        let mut register = self.register();
        let i = &mut self.insts[at as usize];
        (i.lea, i.mem, i.operands) = (1, 1, vec![(1, register)]);
        self.job.addresses.extend([at, local]);
        let (mut begun, mut last) = (at, at);
        for k in 0..1 + self.below(3) {
            let Some(reader) = self.take(block, last + 1) else { break };
            let found = self.below(8);
            let other = self.below(self.shape.others);
            let i = &mut self.insts[reader as usize];
            if k == 0 && escapes {
                // handed to a call
                i.operands = vec![(0, other), (0, register)];
            } else {
                (i.mem, i.base, i.operands) = (1, 1, vec![(1, other), (0, register)]);
            }
            last = reader;
            if found == 0 && !(k == 0 && escapes) {
                self.lives(register, begun, last);
                let held = self.register();
                let i = &mut self.insts[reader as usize];
                (i.lea, i.operands[0]) = (1, (1, held));
                (register, begun) = (held, reader);
            }
        }
        self.lives(register, begun, last);
    }

    /// From the late point of one instruction to the early point of another behind it.
    fn lives(&mut self, register: u32, from: u32, to: u32) {
        let start = self.insts[from as usize].early + 1;
        let end = self.insts[to as usize].early.max(start);
        self.live[register as usize].push((start, end));
    }

    fn local(&mut self, local: u32) {
        let size = [1, 4, 8, 8, 16, 24, 40, 64][self.below(8) as usize];
        self.job.locals.extend([size, size.min(8)]);
        let home = self.below(self.shape.blocks);
        let escapes = local % 8 < self.shape.ending;
        for _ in 0..1 + self.below(3) {
            let block = self.near(home);
            self.address(local, block, escapes);
        }
        // readers that have the address in themselves
        for _ in 0..self.below(4) {
            let block = self.near(home);
            if let Some(at) = self.take(block, 0) {
                self.insts[at as usize].mem = 1;
                self.job.addresses.extend([at, local]);
            }
        }
        if escapes {
            // on every way out of its scope
            let scope = home..(home + self.shape.reach).min(self.shape.blocks);
            for block in scope.clone() {
                if self.ahead[block as usize].iter().any(|to| !scope.contains(to)) {
                    self.job.ends.extend([self.firsts[block as usize + 1] - 1, local]);
                }
            }
        }
    }

    /// A register's pieces from an instruction on: through some blocks, in one or more places.
    fn stretch(&mut self, register: u32, from: u32, places: u32) -> Vec<u32> {
        let mut at = from;
        let mut readers = Vec::new();
        for _ in 0..places {
            let block = self.near(self.insts[at as usize].block);
            let (first, end) = (self.firsts[block as usize], self.firsts[block as usize + 1]);
            let to = (first + self.below(end - first)).max(at);
            self.lives(register, at, to);
            readers.push(to);
            let far = self.near(self.insts[to as usize].block) + 1;
            if far >= self.shape.blocks {
                break;
            }
            at = self.firsts[far as usize];
        }
        readers
    }

    /// A slot: stored behind the instruction that writes its register, loaded before each that reads it; one in four is moved on an edge too.
    fn slot(&mut self, slot: u32) {
        let width = if self.below(16) == 0 { 16 } else { 8 };
        self.job.slots.push(width);
        let register = self.register();
        let from = self.below(self.insts.len() as u32);
        let places = if self.below(8) == 0 { 3 + self.below(6) } else { 1 + self.below(2) };
        self.job.assigned.extend([register, slot]);
        self.job.moves.extend([1, from, slot, NONE]);
        for reader in self.stretch(register, from, places) {
            self.job.moves.extend([0, reader, NONE, slot]);
        }
        if self.below(4) == 0 {
            let block = self.insts[from as usize].block;
            let other = self.below(slot + 1);
            let kind = 2 + self.below(2);
            self.job.moves.extend([kind, block, slot, other]);
        }
    }

    /// What nothing was made of: a def and a use or two of the other registers.
    fn fill(&mut self) {
        for at in 0..self.insts.len() {
            if self.insts[at].operands.is_empty() {
                let uses = 1 + self.below(self.shape.uses);
                let operands = (0..=uses).map(|k| (u32::from(k == 0), self.below(self.shape.others))).collect();
                self.insts[at].operands = operands;
            }
        }
        for register in 0..self.shape.others {
            let from = self.below(self.insts.len() as u32);
            let to = from + self.below(12).min(self.insts.len() as u32 - 1 - from);
            self.lives(register, from, to);
            if self.below(16) == 0 {
                self.job.crossings.push(register);
            }
        }
    }

    /// Blocks are numbered in another order than they stand in line: so far their places stand in the rows.
    fn numbered(&mut self) {
        let mut numbers: Vec<u32> = (0..self.shape.blocks).collect();
        for k in (1..self.shape.blocks).rev() {
            let other = self.below(k + 1);
            numbers.swap(k as usize, other as usize);
        }
        let renumber = |place: &mut u32| *place = numbers[*place as usize];
        self.job.blocks.chunks_mut(3).for_each(|b| renumber(&mut b[0]));
        self.job.edges.iter_mut().for_each(renumber);
        self.insts.iter_mut().for_each(|i| renumber(&mut i.block));
        self.job.moves.chunks_mut(4).filter(|m| m[0] > 1).for_each(|m| renumber(&mut m[1]));
    }

    fn rows(mut self) -> Job {
        self.numbered();
        self.job.v = self.live.len() as u32;
        for i in &self.insts {
            self.job.insts.extend([1, i.block, i.early, i.early + 1, i.lea, i.mem, i.base, NOWHERE, i.operands.len() as u32]);
            self.job.operands.extend(i.operands.iter().flat_map(|&(def, register)| [def, register]));
        }
        for (register, pieces) in self.live.iter().enumerate() {
            self.job.pieces.extend(pieces.iter().flat_map(|&(start, end)| [register as u32, start, end]));
        }
        self.job
    }
}

pub fn function(shape: Shape) -> Job {
    let job = Job { name: shape.name, budget: BUDGET, ..Job::default() };
    let mut m = Maker {
        r: Random(0x9e37_79b9_7f4a_7c15),
        shape,
        job,
        insts: Vec::new(),
        firsts: Vec::new(),
        ahead: vec![Vec::new(); shape.blocks as usize],
        live: vec![Vec::new(); shape.others as usize],
    };
    m.line();
    m.edges();
    (0..shape.locals).for_each(|local| m.local(local));
    (0..shape.slots).for_each(|slot| m.slot(slot));
    m.fill();
    m.rows()
}
