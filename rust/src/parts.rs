//! The parts of a job by its records: which locals are followed, what carries their addresses, what moves cover, and the areas of items.
use crate::{part_calls as calls, Area, Graph, Job, Kind, LocalEnd, Range, Refusal, Touch, MOST_RANGES};

/// What is known of a local's address.
#[derive(Clone, Copy, Debug, PartialEq, Eq, Hash)]
#[repr(u32)]
pub enum Followed {
    /// The local is not followed: it has no area, and shares nothing.
    No = 0,
    /// Its area is where its address is in use.
    Plain = 1,
    /// Its address escapes: its area is up to its ends.
    Ending = 2,
}

impl Followed {
    fn of(number: u32) -> Followed {
        match number {
            0 => Followed::No,
            1 => Followed::Plain,
            _ => Followed::Ending,
        }
    }
}

/// The areas of items.
#[derive(Clone, Debug, PartialEq, Eq)]
pub struct Areas {
    /// All ranges, in item order; an item's are in order, with at least one point between any two.
    pub ranges: Vec<Range>,
    /// A row for each item.
    pub items: Vec<Area>,
}

impl Areas {
    /// The area of an item: none if it has none, or past the end.
    #[must_use]
    pub fn area(&self, item: usize) -> Option<&[Range]> {
        let row = self.items.get(item).filter(|row| row.present != 0)?;
        Some(&self.ranges[row.first as usize..(row.first + row.count) as usize])
    }
}

impl Job {
    /// The job's blocks and edges.
    #[must_use]
    pub fn graph(&self) -> Graph<'_> {
        Graph { blocks: &self.blocks, edges: &self.edges, points: self.points }
    }

    /// What is known of each local's address.
    ///
    /// # Errors
    /// What is refused of the blocks, the instructions, the crossings, the addresses and the ends.
    pub fn reach(&self) -> Result<Vec<Followed>, Refusal> {
        let mut kinds = vec![0; self.locals.len()];
        calls::reach(self, &mut kinds, &mut self.part_work(calls::reach_words(self)))?;
        Ok(kinds.into_iter().map(Followed::of).collect())
    }

    /// The registers that carry a local's address, rising; none for a local past the end.
    ///
    /// # Errors
    /// As [`Job::reach`].
    pub fn carried(&self, local: u32) -> Result<Option<Vec<u32>>, Refusal> {
        let mut registers = vec![0; self.insts.len()];
        let n = calls::carried(self, local, &mut registers, &mut self.part_work(calls::reach_words(self)))?;
        Ok(n.map(|n| {
            registers.truncate(n as usize);
            registers
        }))
    }

    /// What the moves of a slot cover, in the moves' order.
    ///
    /// # Errors
    /// What is refused of the blocks, the instructions and the moves.
    pub fn move_ranges(&self, slot: u32) -> Result<Vec<Range>, Refusal> {
        let mut out = vec![Range::default(); 2 * self.moves.len()];
        let n = calls::moved(self, slot, &mut out, &mut self.part_work(calls::moved_words(self)))?;
        out.truncate(n as usize);
        Ok(out)
    }

    /// The areas of all items, locals first and then slots. The area list starts at a guess and grows, up to [`MOST_RANGES`], until all areas fit.
    ///
    /// # Errors
    /// What [`Job::share`] refuses, but for its budget and its cells.
    pub fn item_areas(&self) -> Result<Areas, Refusal> {
        let mut room = self.first_ranges();
        loop {
            let (mut ranges, mut items) = (vec![Range::default(); room], vec![Area::default(); self.items()]);
            match calls::item_areas(self, &mut ranges, &mut items, &mut self.part_work(self.work_words(room))) {
                Err(refusal) if refusal.kind == Kind::List && room < MOST_RANGES => room = (room * 4).min(MOST_RANGES),
                Err(refusal) => return Err(refusal),
                Ok(n) => {
                    ranges.truncate(n as usize);
                    return Ok(Areas { ranges, items });
                }
            }
        }
    }

    /// The register of each slot: the last that is assigned to it, or none.
    ///
    /// # Errors
    /// What is refused of the assignments.
    pub fn spilled(&self) -> Result<Vec<Option<u32>>, Refusal> {
        let mut registers = vec![0; self.slots.len()];
        calls::spilled(self, &mut registers, &mut self.part_work(calls::spilled_words(self)))?;
        Ok(registers.into_iter().map(|register| (register != self.v).then_some(register)).collect())
    }

    /// So many words of work space, or none for a job that is refused for its counts, whatever the work space.
    fn part_work(&self, words: u64) -> Vec<u64> {
        let refused = self.blocks.len() > 4_096 || self.locals.len() > 2_048;
        vec![0; if refused { 0 } else { usize::try_from(words).unwrap_or(0) }]
    }
}

impl Graph<'_> {
    /// The areas of locals by what is known of their addresses, by touches and ends that are lent by themselves. Touches and ends of a local that is not
    /// followed, or past the end, count for nobody. The area list grows, up to [`MOST_RANGES`], until all areas fit.
    ///
    /// # Errors
    /// As [`Graph::components`]; [`Kind::Piece`] at a touch that is reversed or not wholly in the blocks, whoever's it is.
    pub fn local_areas(self, locals: &[Followed], touches: &[Touch], ends: &[LocalEnd]) -> Result<Areas, Refusal> {
        let kinds: Vec<u32> = locals.iter().map(|&followed| followed as u32).collect();
        let mut room = (2 * touches.len() + self.blocks.len()).clamp(16, MOST_RANGES);
        loop {
            let (mut ranges, mut items) = (vec![Range::default(); room], vec![Area::default(); kinds.len()]);
            let refused = self.blocks.len() > 4_096 || kinds.len() > 2_048;
            let words = if refused { 0 } else { calls::area_words(self, kinds.len(), touches.len(), ends.len(), room) };
            let mut work = vec![0; usize::try_from(words).unwrap_or(0)];
            match calls::local_areas(self, &kinds, touches, ends, &mut ranges, &mut items, &mut work) {
                Err(refusal) if refusal.kind == Kind::List && room < MOST_RANGES => room = (room * 4).min(MOST_RANGES),
                Err(refusal) => return Err(refusal),
                Ok(n) => {
                    ranges.truncate(n as usize);
                    return Ok(Areas { ranges, items });
                }
            }
        }
    }
}
