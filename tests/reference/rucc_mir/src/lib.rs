//! Stand-in: a machine function made of document 01's records.
use std::ops::Index;

#[derive(Debug, Clone, Copy, PartialEq, Eq, Hash, PartialOrd, Ord)]
pub struct Block(pub u32);

impl Block {
    pub fn index(self) -> usize {
        self.0 as usize
    }
}

#[derive(Debug, Clone, Copy, PartialEq, Eq, Hash, PartialOrd, Ord)]
pub struct Inst(pub u32);

#[derive(Debug, Clone, Copy, PartialEq, Eq)]
pub struct Opcode(u32);

impl Opcode {
    pub fn new(name: u32) -> Self {
        Self(name)
    }
}

/// Registers below the function's count are numbered, the others physical.
#[derive(Debug, Clone, Copy, PartialEq, Eq, Hash, PartialOrd, Ord)]
pub enum Reg {
    Numbered(u32),
    Physical(u32),
}

impl Reg {
    pub fn number(self) -> Option<u32> {
        match self {
            Self::Numbered(n) => Some(n),
            Self::Physical(_) => None,
        }
    }
}

#[derive(Debug, Clone, Copy)]
pub struct Role(pub bool);

impl Role {
    pub fn is_def(self) -> bool {
        self.0
    }
}

#[derive(Debug, Clone, Copy)]
pub struct Operand {
    pub reg: Reg,
    pub role: Role,
}

#[derive(Debug, Clone, Copy)]
pub struct Operands(pub u32);

#[derive(Debug, Clone, Copy)]
pub struct Mem(pub u32);

#[derive(Debug, Clone, Copy)]
pub struct Amode {
    pub base: Option<u8>,
    pub index: Option<u8>,
}

#[derive(Debug, Clone)]
pub struct InstData {
    pub opcode: Opcode,
    pub operands: Operands,
    pub mem: Option<Mem>,
}

#[derive(Debug, Clone)]
pub struct Call {
    pub block: Block,
    pub args: Vec<Reg>,
}

#[derive(Debug, Clone)]
pub struct Param {
    pub reg: Reg,
}

#[derive(Debug, Clone, Default)]
pub struct BlockData {
    pub params: Vec<Param>,
    pub succs: Vec<Call>,
    pub insts: Vec<Inst>,
}

#[derive(Debug, Clone, Default)]
pub struct Func {
    pub blocks: Vec<BlockData>,
    pub line: Vec<Block>,
    pub insts: Vec<InstData>,
    pub operands: Vec<Vec<Operand>>,
    pub amodes: Vec<Amode>,
    pub placed: Vec<Option<Block>>,
}

impl Func {
    pub fn block_count(&self) -> usize {
        self.blocks.len()
    }
    pub fn block_of(&self, inst: Inst) -> Option<Block> {
        self.placed[inst.0 as usize]
    }
    pub fn blocks(&self) -> impl Iterator<Item = Block> + '_ {
        self.line.iter().copied()
    }
    pub fn insts(&self, block: Block) -> impl Iterator<Item = Inst> + '_ {
        self.blocks[block.index()].insts.iter().copied()
    }
}

impl Index<Inst> for Func {
    type Output = InstData;
    fn index(&self, inst: Inst) -> &InstData {
        &self.insts[inst.0 as usize]
    }
}

impl Index<Operands> for Func {
    type Output = [Operand];
    fn index(&self, list: Operands) -> &[Operand] {
        &self.operands[list.0 as usize]
    }
}

impl Index<Mem> for Func {
    type Output = Amode;
    fn index(&self, mem: Mem) -> &Amode {
        &self.amodes[mem.0 as usize]
    }
}

impl Index<Block> for Func {
    type Output = BlockData;
    fn index(&self, block: Block) -> &BlockData {
        &self.blocks[block.index()]
    }
}
