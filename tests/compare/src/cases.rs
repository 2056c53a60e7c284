//! A case: a line with a name, a blank, and columns of numbers, a comma after each number and a bar after each column.
use rucc_mir::{Amode, Block, BlockData, Call, Func, Inst, InstData, Mem, Opcode, Operand, Operands, Param, Reg, Role};
use rucc_regalloc::order::Order;

/// The bytes that each of the programs reads at least, and more than a random case has.
pub const ROOM: usize = 8192;
pub const LONGEST: usize = 4096;

pub struct Case {
    pub text: String,
    pub name: String,
    pub columns: Vec<Vec<u32>>,
}

impl Case {
    pub fn read(line: &str) -> Self {
        let (name, rest) = line.split_once(' ').expect("a name and a blank");
        let column = |text: &str| text.split_terminator(',').map(|n| n.parse().expect("a number")).collect();
        Self { text: line.to_string(), name: name.to_string(), columns: rest.split_terminator('|').map(column).collect() }
    }

    pub fn write(name: &str, columns: &[Vec<u32>]) -> String {
        let column = |c: &Vec<u32>| c.iter().map(|n| format!("{n},")).collect::<String>() + "|";
        format!("{name} {}\n", columns.iter().map(column).collect::<String>())
    }
}

/// An answer list: what was answered, and 7s up to its length.
pub fn list(answer: &[u32], length: usize) -> String {
    let sevens = std::iter::repeat(&7).take(length.saturating_sub(answer.len()));
    answer.iter().chain(sevens).map(|n| format!(" {n}")).collect()
}

pub fn reg(v: u32, r: u32) -> Reg {
    if r < v { Reg::Numbered(r) } else { Reg::Physical(r - v) }
}

/// The records as slots.rs is lent them. Crossings are parameters of block 0 and arguments of an edge from it to itself, in turn.
pub struct Records<'a> {
    pub v: u32,
    pub points: u32,
    pub blocks: &'a [u32],
    pub edges: &'a [u32],
    pub insts: &'a [u32],
    pub operands: &'a [u32],
    pub crossings: &'a [u32],
}

impl Records<'_> {
    pub fn func(&self) -> Func {
        let count = self.blocks.len() / 3;
        let line = self.blocks.chunks(3).map(|b| Block(b[0])).collect();
        let mut func = Func { blocks: vec![BlockData::default(); count], line, ..Func::default() };
        for edge in self.edges.chunks(2) {
            func.blocks[edge[0] as usize].succs.push(Call { block: Block(edge[1]), args: Vec::new() });
        }
        let mut operands = self.operands.chunks(2).map(|o| Operand { reg: reg(self.v, o[1]), role: Role(o[0] == 1) });
        for (i, row) in self.insts.chunks(9).enumerate() {
            let position = |p: u32| u8::try_from(p).ok();
            func.placed.push((row[0] == 1).then_some(Block(row[1])));
            func.insts.push(InstData { opcode: Opcode::new(row[4]), operands: Operands(i as u32), mem: (row[5] == 1).then_some(Mem(i as u32)) });
            func.amodes.push(Amode { base: position(row[6]), index: position(row[7]) });
            func.operands.push(operands.by_ref().take(row[8] as usize).collect());
            if row[0] == 1 {
                func.blocks[row[1] as usize].insts.push(Inst(i as u32));
            }
        }
        if !self.crossings.is_empty() {
            let (mut params, mut args) = (Vec::new(), Vec::new());
            for (k, &r) in self.crossings.iter().enumerate() {
                if k % 2 == 0 { params.push(Param { reg: reg(self.v, r) }) } else { args.push(reg(self.v, r)) }
            }
            func.blocks[0].params = params;
            func.blocks[0].succs.push(Call { block: Block(0), args });
        }
        func
    }

    pub fn order(&self) -> Order {
        let count = self.blocks.len() / 3;
        let mut order = Order { points: self.points, starts: vec![0; count], ends: vec![0; count], ..Order::default() };
        for b in self.blocks.chunks(3) {
            order.line.push(Block(b[0]));
            order.starts[b[0] as usize] = b[1];
            order.ends[b[0] as usize] = b[2];
        }
        for row in self.insts.chunks(9) {
            order.early.push(row[2]);
            order.late.push(row[3]);
        }
        order
    }
}

/// A small generator, the same numbers in each run.
pub struct Random(pub u64);

impl Random {
    pub fn below(&mut self, n: u32) -> u32 {
        self.0 ^= self.0 << 13;
        self.0 ^= self.0 >> 7;
        self.0 ^= self.0 << 17;
        ((self.0 >> 11) % u64::from(n)) as u32
    }

    /// The generator of a seed, which may be any number.
    pub fn seeded(seed: u64) -> Self {
        let mut r = Self((seed ^ 0x9e37_79b9_7f4a_7c15) | 1 << 63);
        for _ in 0..4 {
            r.word();
        }
        r
    }

    pub fn word(&mut self) -> u64 {
        let high = u64::from(self.number());
        high << 32 | u64::from(self.number())
    }

    pub fn number(&mut self) -> u32 {
        self.below(u32::MAX)
    }

    pub fn one_in(&mut self, n: u32) -> bool {
        self.below(n) == 0
    }

    /// Up to `most` blocks in line, their numbers in any order, and a number of points.
    pub fn line(&mut self, most: u32) -> (Vec<u32>, u32) {
        let count = 1 + self.below(most);
        let mut numbers: Vec<u32> = (0..count).collect();
        for k in (1..count).rev() {
            numbers.swap(k as usize, self.below(k + 1) as usize);
        }
        let mut start = if self.one_in(2) { 0 } else { self.below(5) };
        let mut blocks = Vec::new();
        for number in numbers {
            let end = start + self.below(6);
            blocks.extend([number, start, end]);
            start = end + 1;
        }
        (blocks, start - 1 + self.below(3))
    }

    /// A block of the line, and a range in it.
    pub fn spot(&mut self, blocks: &[u32]) -> (u32, u32, u32) {
        let b = &blocks[3 * self.below(blocks.len() as u32 / 3) as usize..][..3];
        let early = b[1] + self.below(b[2] - b[1] + 1);
        (b[0], early, early + self.below(b[2] - early + 1))
    }
}
