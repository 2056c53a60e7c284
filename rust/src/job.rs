//! Jobs: the records of a function, and the plan of its items.
use crate::records::*;
use crate::{calls, Kind, Plan, Refusal};

/// The most ranges that an area list may have.
pub const MOST_RANGES: usize = 65_536;
/// The most cells that may be probed.
pub const MOST_BUDGET: u32 = 1_048_576;

/// A function's records, in the order of the groups. Methods that add a record answer its index in its group, for later records to name.
#[derive(Clone, Debug, Default, PartialEq, Eq)]
pub struct Job {
    /// The last point there is.
    pub points: u32,
    /// How many registers are numbered: 0 to `v` - 1. Registers `v` to `v` + 255 are physical.
    pub v: u32,
    /// How many cells may be probed.
    pub budget: u32,
    /// The blocks in line order.
    pub blocks: Vec<Block>,
    /// The edges.
    pub edges: Vec<Edge>,
    /// The instructions.
    pub insts: Vec<Inst>,
    /// The operands of all instructions, one after another.
    pub operands: Vec<Operand>,
    /// Registers of block parameters and edge arguments.
    pub crossings: Vec<u32>,
    /// The locals.
    pub locals: Vec<Local>,
    /// The slots' widths.
    pub slots: Vec<u32>,
    /// Which instructions hold which addresses.
    pub addresses: Vec<Address>,
    /// Where locals end.
    pub ends: Vec<End>,
    /// When registers are live.
    pub pieces: Vec<Piece>,
    /// Which registers are kept in which slots.
    pub assigned: Vec<Assigned>,
    /// The moves of slots.
    pub moves: Vec<Move>,
}

/// What a plan in lent lists has: how many cells, the probes spent, the depth.
#[derive(Clone, Copy, Debug, PartialEq, Eq)]
pub struct Counts {
    /// How many cells.
    pub cells: usize,
    /// The probes spent.
    pub probes: u64,
    /// The last cell's depth, which is minus its offset: the bytes of all cells, with the padding. 0 without cells.
    pub depth: u64,
}

fn add<T>(group: &mut Vec<T>, record: T) -> u32 {
    group.push(record);
    (group.len() - 1) as u32
}

impl Job {
    /// A job without records, with the largest budget.
    #[must_use]
    pub fn new(points: u32, v: u32) -> Job {
        Job { points, v, budget: MOST_BUDGET, ..Job::default() }
    }

    /// The next block in the line, by its number.
    pub fn block(&mut self, number: u32, start: u32, end: u32) -> u32 {
        add(&mut self.blocks, Block { number, start, end })
    }

    /// An edge, by block numbers.
    pub fn edge(&mut self, from: u32, to: u32) -> u32 {
        add(&mut self.edges, Edge { from, to })
    }

    /// An instruction without operands so far.
    pub fn inst(&mut self, inst: Inst) -> u32 {
        add(&mut self.insts, Inst { operands: 0, ..inst })
    }

    /// One more operand of the last instruction: its position there.
    ///
    /// # Panics
    /// Before the first instruction.
    pub fn operand(&mut self, def: bool, register: u32) -> u32 {
        let inst = self.insts.last_mut().expect("an operand follows its instruction");
        inst.operands += 1;
        self.operands.push(Operand { def: def.into(), register });
        inst.operands - 1
    }

    /// A register that is a block's parameter or an edge's argument.
    pub fn crossing(&mut self, register: u32) -> u32 {
        add(&mut self.crossings, register)
    }

    /// A local: the bytes it takes and its alignment.
    pub fn local(&mut self, size: u32, align: u32) -> u32 {
        add(&mut self.locals, Local { size, align })
    }

    /// A slot of this width.
    pub fn slot(&mut self, width: u32) -> u32 {
        add(&mut self.slots, width)
    }

    /// The instruction holds the local's address.
    pub fn address(&mut self, inst: u32, local: u32) -> u32 {
        add(&mut self.addresses, Address { inst, local })
    }

    /// The local ends at the instruction.
    pub fn end(&mut self, inst: u32, local: u32) -> u32 {
        add(&mut self.ends, End { inst, local })
    }

    /// The register is live from `start` to `end`.
    pub fn piece(&mut self, register: u32, start: u32, end: u32) -> u32 {
        add(&mut self.pieces, Piece { register, start, end })
    }

    /// The register is kept in the slot.
    pub fn assign(&mut self, register: u32, slot: u32) -> u32 {
        add(&mut self.assigned, Assigned { register, slot })
    }

    /// A move between a register and a slot, or between two slots.
    pub fn moved(&mut self, place: Place, to: Option<u32>, from: Option<u32>) -> u32 {
        add(&mut self.moves, Move::new(place, to, from))
    }

    /// How many items there are: locals and slots.
    #[must_use]
    pub fn items(&self) -> usize {
        self.locals.len() + self.slots.len()
    }

    /// How many words of work space the job needs with an area list of so many ranges.
    #[must_use]
    pub fn work_words(&self, ranges: usize) -> u64 {
        calls::work_words(self, ranges)
    }

    /// The plan, its lists and the work space allocated here. The area list starts at a guess and grows, up to [`MOST_RANGES`], until all areas fit.
    ///
    /// # Errors
    /// The first record that is not as it has to be; [`Kind::List`] where all areas together have more ranges than an area list may have; [`Kind::Align`] or
    /// [`Kind::Depth`] of the first cell whose alignment is no power of two, or that lies too deep.
    pub fn share(&self) -> Result<Plan, Refusal> {
        let mut ranges = self.first_ranges();
        loop {
            match self.share_within(ranges) {
                Err(refusal) if refusal.kind == Kind::List && ranges < MOST_RANGES => ranges = (ranges * 4).min(MOST_RANGES),
                answer => return answer,
            }
        }
    }

    /// The same with an area list of so many ranges.
    ///
    /// # Errors
    /// As [`Job::share`]; [`Kind::List`] if the areas have more ranges.
    pub fn share_within(&self, ranges: usize) -> Result<Plan, Refusal> {
        let mut areas = vec![Range::default(); ranges];
        let mut work = vec![0; self.words_within_limits(ranges)];
        let (mut cells, mut items, mut offsets) = (vec![Cell::default(); self.items()], vec![Item::default(); self.items()], vec![0; self.items()]);
        let counts = self.share_into(&mut cells, &mut items, &mut areas, &mut offsets, &mut work)?;
        Ok(Plan::new(cells, items, areas, offsets, self.locals.len() as u32, [counts.cells as u64, counts.probes, counts.depth]))
    }

    /// The plan into lists that are lent. A refusal changes none of `cells`, `items`, `areas` and `offsets`, and none but [`Kind::List`], [`Kind::Align`] and
    /// [`Kind::Depth`] changes `work`; a plan, and these three, leave the first [`Job::work_words`] words of `work` zero.
    ///
    /// # Errors
    /// As [`Job::share_within`]; [`Kind::Space`] for a list under the items or a work space under [`Job::work_words`].
    pub fn share_into(
        &self, cells: &mut [Cell], items: &mut [Item], areas: &mut [Range], offsets: &mut [i32], work: &mut [u64],
    ) -> Result<Counts, Refusal> {
        let mut counts = [0; 3];
        calls::share(self, cells, items, areas, offsets, &mut counts, work)?;
        Ok(Counts { cells: counts[0] as usize, probes: counts[1], depth: counts[2] })
    }

    /// How many ranges to begin with.
    pub(crate) fn first_ranges(&self) -> usize {
        let guess = 2 * (self.pieces.len() + self.addresses.len() + self.moves.len() + self.blocks.len());
        guess.clamp(16, MOST_RANGES)
    }

    /// W, or no words for more blocks or locals than a job may have: such a job is refused for its counts, whatever the work space.
    fn words_within_limits(&self, ranges: usize) -> usize {
        if self.blocks.len() > 4_096 || self.locals.len() > 2_048 || ranges > MOST_RANGES {
            return 0;
        }
        usize::try_from(self.work_words(ranges)).unwrap_or(0)
    }
}
