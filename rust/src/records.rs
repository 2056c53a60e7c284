//! The records of a job and of a plan. Each is a row of numbers, laid out as the component reads it.

/// A record that is a row of 32-bit numbers and nothing else.
///
/// # Safety
/// The type is laid out as an array of `u32` is: its size is a multiple of 4, its alignment is that of `u32`, it has no padding, and whatever the numbers
/// are, they are one of its values.
pub(crate) unsafe trait Row: Copy {
    /// How many numbers a row has.
    const NUMBERS: usize = std::mem::size_of::<Self>() / 4;
}

macro_rules! rows {
    ($($(#[$about:meta])* $name:ident { $($(#[$field_about:meta])* $field:ident),* })*) => {$(
        $(#[$about])*
        #[repr(C)]
        #[derive(Clone, Copy, Debug, Default, PartialEq, Eq, Hash)]
        pub struct $name { $($(#[$field_about])* pub $field: u32),* }
        // SAFETY: a `repr(C)` struct whose fields are all `u32` has neither padding nor values that it excludes.
        unsafe impl Row for $name {}
    )*};
}

// SAFETY: it is one such number.
unsafe impl Row for u32 {}

rows! {
    /// A block of the line; blocks stand in line order, without gaps.
    Block {
        /// Its number: 0 to the blocks less 1, in any order.
        number,
        /// Its first point.
        start,
        /// Its last point.
        end
    }
    /// An edge, by block numbers.
    Edge {
        /// The block that it leaves.
        from,
        /// The block that it enters.
        to
    }
    /// An instruction; [`Inst::at`] and [`Inst::unplaced`] make one.
    Inst {
        /// 1, or 0 for one that stands in no block.
        placed,
        /// Its block's number.
        block,
        /// Its early point.
        early,
        /// Its late point.
        late,
        /// 1 for an address computation, else 0.
        lea,
        /// 1 if it reads or writes memory by a base and an index, else 0.
        mem,
        /// The position of the base operand, or [`NONE`].
        base,
        /// The position of the index operand, or [`NONE`].
        index,
        /// How many operands are its own; [`crate::Job::operand`] counts them.
        operands
    }
    /// An operand of an instruction.
    Operand {
        /// 1 if it defines its register, else 0.
        def,
        /// The register.
        register
    }
    /// A local.
    Local {
        /// The bytes that it takes.
        size,
        /// Its alignment.
        align
    }
    /// An instruction that holds the address of a local.
    Address {
        /// The instruction.
        inst,
        /// The local; a number past the end counts for nobody.
        local
    }
    /// An instruction at whose early point a local ends.
    End {
        /// The instruction.
        inst,
        /// The local; a number past the end counts for nobody.
        local
    }
    /// A piece of a register's life.
    Piece {
        /// The register.
        register,
        /// The first point at which it is live.
        start,
        /// The last.
        end
    }
    /// A register is kept in a slot; a slot's last one counts.
    Assigned {
        /// The register.
        register,
        /// The slot; a number past the end counts for nobody.
        slot
    }
    /// A move to and from slots; [`Move::new`] makes one.
    Move {
        /// 0 to 3: before or after an instruction, at the start or the end of a block.
        kind,
        /// The instruction, or the number of the block.
        number,
        /// The slot that it goes to, or [`NO_SLOT`].
        to,
        /// The slot that it comes from, or [`NO_SLOT`].
        from
    }
    /// A range of points, both ends included.
    Range {
        /// Its first point.
        start,
        /// Its last point.
        end
    }
    /// A cell of the frame that items share.
    Cell {
        /// Its members' largest size.
        size,
        /// Its members' largest alignment.
        align
    }
    /// An item of a plan.
    Item {
        /// Its cell.
        cell,
        /// 1 if it has an area, else 0.
        present,
        /// The first range of its area in the area list.
        first,
        /// How many ranges its area has.
        count
    }
    /// An item's area where it stands by itself.
    Area {
        /// 1 if there is one, else 0.
        present,
        /// Its first range in the area list.
        first,
        /// How many ranges it has.
        count
    }
    /// A touch of a local that is lent by itself.
    Touch {
        /// The local; a number past the end counts for nobody.
        local,
        /// The first point of the touch.
        start,
        /// The last.
        end
    }
    /// A point at which a local ends, lent by itself.
    LocalEnd {
        /// The local; a number past the end counts for nobody.
        local,
        /// The point.
        point
    }
    /// An item for fitting alone.
    Want {
        /// The bytes that it takes.
        size,
        /// Its alignment.
        align,
        /// 0 for no area; its part is then not read.
        present,
        /// The first range of its area in the area list.
        first,
        /// How many ranges its area has.
        count
    }
}

/// No base or index operand.
pub const NONE: u32 = 256;
/// No slot, in a move.
pub const NO_SLOT: u32 = u32::MAX;

/// Where a move stands.
#[derive(Clone, Copy, Debug, PartialEq, Eq)]
pub enum Place {
    /// Before an instruction, at its early point.
    Before(u32),
    /// After an instruction, at its late point.
    After(u32),
    /// At the start of a block.
    Start(u32),
    /// At the end of a block.
    End(u32),
}

impl Inst {
    /// An instruction of a block, without base and index.
    #[must_use]
    pub fn at(block: u32, early: u32, late: u32) -> Inst {
        Inst { placed: 1, block, early, late, base: NONE, index: NONE, ..Inst::default() }
    }

    /// An instruction that stands in no block.
    #[must_use]
    pub fn unplaced() -> Inst {
        Inst { base: NONE, index: NONE, ..Inst::default() }
    }

    /// The same, as an address computation.
    #[must_use]
    pub fn lea(self) -> Inst {
        Inst { lea: 1, ..self }
    }

    /// The same, as one that reads or writes memory by the operands at these positions.
    #[must_use]
    pub fn memory(self, base: Option<u32>, index: Option<u32>) -> Inst {
        Inst { mem: 1, base: base.unwrap_or(NONE), index: index.unwrap_or(NONE), ..self }
    }
}

impl Move {
    /// A move at a place, to a slot and from a slot, or none.
    #[must_use]
    pub fn new(place: Place, to: Option<u32>, from: Option<u32>) -> Move {
        let (kind, number) = match place {
            Place::Before(inst) => (0, inst),
            Place::After(inst) => (1, inst),
            Place::Start(block) => (2, block),
            Place::End(block) => (3, block),
        };
        Move { kind, number, to: to.unwrap_or(NO_SLOT), from: from.unwrap_or(NO_SLOT) }
    }
}

impl Range {
    /// From the first point to the last.
    #[must_use]
    pub fn new(start: u32, end: u32) -> Range {
        Range { start, end }
    }

    /// Whether each of the two starts no later than the other ends.
    #[must_use]
    pub fn overlaps(self, other: Range) -> bool {
        crate::calls::overlaps(self, other)
    }
}
