//! Why a call was turned back.
use std::fmt;

/// What is wrong, by the words of the component's table of refusals. Number 8 is retired and not given out again.
#[derive(Clone, Copy, Debug, PartialEq, Eq, Hash)]
#[repr(u32)]
pub enum Kind {
    /// A count or the budget outside its limits, or a list that is no whole rows.
    Count = 1,
    /// A block out of line.
    Line = 2,
    /// An edge that names no block.
    Edge = 3,
    /// An instruction, a crossing or a local's kind out of range.
    Inst = 4,
    /// An address, an end or a move at no instruction or block.
    Stray = 5,
    /// A live piece, a touch or an assignment out of range.
    Piece = 6,
    /// A work space or an answer list that is too short.
    Space = 7,
    /// More ranges than the area list holds.
    List = 9,
    /// A range or a lent plan that is not as it has to be.
    Want = 10,
    /// A malformed line of a job text.
    Text = 11,
    /// A cell whose alignment is no power of two.
    Align = 12,
    /// A cell whose depth, padding counted, is over 2,147,483,647.
    Depth = 13,
}

/// Each kind.
const KINDS: [Kind; 12] = [
    Kind::Count, Kind::Line, Kind::Edge, Kind::Inst, Kind::Stray, Kind::Piece, Kind::Space, Kind::List, Kind::Want, Kind::Text, Kind::Align, Kind::Depth,
];

/// A refusal: what is wrong, and the index of the first offending record of its group, or of the first such cell.
#[derive(Clone, Copy, Debug, PartialEq, Eq, Hash)]
pub struct Refusal {
    /// What is wrong.
    pub kind: Kind,
    /// The record, counted from 0 in its group, or the cell; 0 where none is named.
    pub index: u32,
}

impl Refusal {
    /// The number in the table of refusals.
    #[must_use]
    pub fn number(self) -> u32 {
        self.kind as u32
    }

    /// The word in the table of refusals.
    #[must_use]
    pub fn word(self) -> &'static str {
        match self.kind {
            Kind::Count => "count",
            Kind::Line => "line",
            Kind::Edge => "edge",
            Kind::Inst => "inst",
            Kind::Stray => "stray",
            Kind::Piece => "piece",
            Kind::Space => "space",
            Kind::List => "list",
            Kind::Want => "want",
            Kind::Text => "text",
            Kind::Align => "align",
            Kind::Depth => "depth",
        }
    }

    /// What it means, in a sentence.
    #[must_use]
    pub fn sentence(self) -> &'static str {
        match self.kind {
            Kind::Count => "a count or the budget is outside its limits, or a list is no whole rows",
            Kind::Line => "a block's number is repeated or too large, or the block is reversed, leaves a gap or ends past the last point",
            Kind::Edge => "an edge names no block",
            Kind::Inst => "an instruction or a crossing has a block, point, flag, position or register out of range",
            Kind::Stray => "an address, an end or a move stands at no instruction or block, or a move's kind is over 3",
            Kind::Piece => "a live piece or a touch is reversed or not wholly in the blocks, or a piece or an assignment is of a register that is not numbered",
            Kind::Space => "the work space or an answer list is too short",
            Kind::List => "all areas together exceed the area list",
            Kind::Want => "a range is reversed or out of order, or a lent plan's part is outside its list",
            Kind::Text => "a line of a job text is malformed",
            Kind::Align => "a cell's alignment is no power of two",
            Kind::Depth => "a cell's depth, padding counted, is over 2,147,483,647",
        }
    }

    /// The refusal that a code above the answers stands for.
    pub(crate) fn of(code: u64) -> Refusal {
        let kind = KINDS.into_iter().find(|&kind| u64::from(kind as u32) == code >> 32);
        Refusal { kind: kind.expect("a refusal's number is 1 to 7 or 9 to 13"), index: code as u32 }
    }
}

impl fmt::Display for Refusal {
    fn fmt(&self, f: &mut fmt::Formatter<'_>) -> fmt::Result {
        write!(f, "refusal {} ({}) at {}: {}", self.number(), self.word(), self.index, self.sentence())
    }
}

impl std::error::Error for Refusal {}
