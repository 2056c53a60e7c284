//! Stand-in: an allocation made of document 01's records.

pub mod live {
    use rucc_mir::Reg;

    #[derive(Debug, Clone, Copy, PartialEq, Eq, Hash)]
    pub struct Range {
        pub start: u32,
        pub end: u32,
    }

    impl Range {
        pub fn overlaps(self, other: Range) -> bool {
            self.start <= other.end && other.start <= self.end
        }
    }

    #[derive(Debug, Clone, Default)]
    pub struct Area(pub Vec<Range>);

    impl Area {
        pub fn pieces(&self) -> impl Iterator<Item = Range> + '_ {
            self.0.iter().copied()
        }
    }

    /// A register without a live piece has no area.
    #[derive(Debug, Clone, Default)]
    pub struct Live(pub Vec<Area>);

    impl Live {
        pub fn area(&self, reg: Reg) -> Option<&Area> {
            let area = self.0.get(reg.number()? as usize)?;
            if area.0.is_empty() { None } else { Some(area) }
        }
    }
}

pub mod order {
    use rucc_mir::{Block, Inst};

    pub type Point = u32;

    #[derive(Debug, Clone, Default)]
    pub struct Order {
        pub line: Vec<Block>,
        pub starts: Vec<u32>,
        pub ends: Vec<u32>,
        pub early: Vec<u32>,
        pub late: Vec<u32>,
        pub points: u32,
    }

    impl Order {
        pub fn blocks(&self) -> &[Block] {
            &self.line
        }
        pub fn start(&self, block: Block) -> Point {
            self.starts[block.index()]
        }
        pub fn end(&self, block: Block) -> Point {
            self.ends[block.index()]
        }
        pub fn early(&self, inst: Inst) -> Point {
            self.early[inst.0 as usize]
        }
        pub fn late(&self, inst: Inst) -> Point {
            self.late[inst.0 as usize]
        }
        pub fn points(&self) -> Point {
            self.points
        }
    }
}

pub mod assign {
    use rucc_mir::Reg;

    #[derive(Debug, Clone, Copy)]
    pub enum Place {
        Reg(u32),
        Slot(u32),
    }

    #[derive(Debug, Clone, Default)]
    pub struct Assignment(pub Vec<(Reg, Place)>);

    impl Assignment {
        pub fn placed(&self) -> impl Iterator<Item = (Reg, Place)> + '_ {
            self.0.iter().copied()
        }
    }
}

pub mod rewrite {
    use rucc_mir::{Block, Inst};

    #[derive(Debug, Clone, Copy)]
    pub enum At {
        Before(Inst),
        After(Inst),
        StartOf(Block),
        EndOf(Block),
    }

    #[derive(Debug, Clone, Copy)]
    pub struct Move {
        pub to: crate::assign::Place,
        pub from: crate::assign::Place,
    }

    #[derive(Debug, Clone, Copy)]
    pub struct Edit {
        pub at: At,
        pub mov: Move,
    }
}

#[derive(Debug, Clone, Default)]
pub struct Allocation {
    pub live: live::Live,
    pub order: order::Order,
    pub assignment: assign::Assignment,
    pub edits: Vec<rewrite::Edit>,
}
