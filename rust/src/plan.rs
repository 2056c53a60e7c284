//! Plans: the cells of a frame, and which item is in which.
use crate::{calls, Cell, Item, Local, Range, Refusal, Want};

/// A plan by its rows, as another program may lend it: each query first checks it, and may refuse it.
#[derive(Clone, Copy, Debug)]
pub struct Lent<'a> {
    /// The cells.
    pub cells: &'a [Cell],
    /// The locals, then the slots.
    pub items: &'a [Item],
    /// The ranges that items' parts are of.
    pub areas: &'a [Range],
    /// How many of the items are locals.
    pub locals: u32,
}

impl<'a> Lent<'a> {
    /// The cell of a local, or none past the end.
    pub fn local(self, i: u32) -> Result<Option<usize>, Refusal> {
        Ok(calls::local(self.cells, self.items, self.locals, i)?.map(|cell| cell as usize))
    }

    /// The cell of a slot, or none past the end.
    pub fn slot(self, i: u32) -> Result<Option<usize>, Refusal> {
        Ok(calls::slot(self.cells, self.items, self.locals, i)?.map(|cell| cell as usize))
    }

    /// The area of a local, only if its cell has two or more members.
    pub fn shared(self, i: u32) -> Result<Option<&'a [Range]>, Refusal> {
        let part = calls::shared(self.cells, self.items, self.areas, self.locals, i)?;
        Ok(part.map(|(first, count)| &self.areas[first..first + count]))
    }

    /// The slots whose cell has two or more members, rising.
    pub fn crowded(self) -> Result<Vec<u32>, Refusal> {
        let mut slots = vec![0; self.items.len().saturating_sub(self.locals as usize)];
        let n = calls::crowded(self.cells, self.items, self.locals, &mut slots)?;
        slots.truncate(n as usize);
        Ok(slots)
    }

    /// Items less cells.
    pub fn saved(self) -> Result<usize, Refusal> {
        Ok(calls::saved(self.cells, self.items, self.locals)? as usize)
    }
}

/// A plan that the component made.
#[derive(Clone, Debug, PartialEq, Eq)]
pub struct Plan {
    cells: Vec<Cell>,
    items: Vec<Item>,
    areas: Vec<Range>,
    offsets: Vec<i32>,
    locals: u32,
    probes: u64,
    depth: u64,
}

const OWN: &str = "no query refuses a plan that the component made";

impl Plan {
    pub(crate) fn new(mut cells: Vec<Cell>, items: Vec<Item>, mut areas: Vec<Range>, mut offsets: Vec<i32>, locals: u32, counts: [u64; 3]) -> Plan {
        cells.truncate(counts[0] as usize);
        offsets.truncate(counts[0] as usize);
        areas.truncate(items.iter().map(|item| (item.first + item.count) as usize).max().unwrap_or(0));
        Plan { cells, items, areas, offsets, locals, probes: counts[1], depth: counts[2] }
    }

    /// The plan in which nothing is shared: a cell for each item, in order, no areas and no offsets. Its depth is the sum of the cells' sizes.
    pub fn apart(locals: &[Local], slots: &[u32]) -> Result<Plan, Refusal> {
        let n = locals.len() + slots.len();
        let (mut cells, mut items) = (vec![Cell::default(); n], vec![Item::default(); n]);
        calls::apart(locals, slots, &mut cells, &mut items)?;
        let depth = cells.iter().map(|cell| u64::from(cell.size)).sum();
        Ok(Plan::new(cells, items, Vec::new(), Vec::new(), locals.len() as u32, [n as u64, 0, depth]))
    }

    /// The plan of wants with given areas, the first `locals` of them locals: fitting alone.
    pub fn fit(wants: &[Want], areas: &[Range], locals: u32, budget: u32) -> Result<Plan, Refusal> {
        let (mut cells, mut items, mut offsets) = (vec![Cell::default(); wants.len()], vec![Item::default(); wants.len()], vec![0; wants.len()]);
        let (mut counts, mut work) = ([0; 3], vec![0; calls::fit_words(wants.len(), areas.len()) as usize]);
        calls::fit_wants(wants, areas, locals, budget, &mut cells, &mut items, &mut offsets, &mut counts, &mut work)?;
        Ok(Plan::new(cells, items, areas.to_vec(), offsets, locals, counts))
    }

    /// The plan's rows.
    #[must_use]
    pub fn lent(&self) -> Lent<'_> {
        Lent { cells: &self.cells, items: &self.items, areas: &self.areas, locals: self.locals }
    }

    /// The cells: their sizes and alignments.
    #[must_use]
    pub fn cells(&self) -> &[Cell] {
        &self.cells
    }

    /// A row for each item, the locals first and then the slots.
    #[must_use]
    pub fn items(&self) -> &[Item] {
        &self.items
    }

    /// The ranges that items' parts are of.
    #[must_use]
    pub fn areas(&self) -> &[Range] {
        &self.areas
    }

    /// Where each cell lies, from the frame base: its bytes are the offset to the offset plus the cell's size less 1, which no other cell has. Each offset is a
    /// multiple of its cell's alignment, and 0 or below. A plan made by [`Plan::apart`] has none.
    #[must_use]
    pub fn offsets(&self) -> &[i32] {
        &self.offsets
    }

    /// The area of an item: none if it has none, or past the end.
    #[must_use]
    pub fn area(&self, item: usize) -> Option<&[Range]> {
        let row = self.items.get(item).filter(|row| row.present != 0)?;
        Some(&self.areas[row.first as usize..(row.first + row.count) as usize])
    }

    /// How many cells were probed.
    #[must_use]
    pub fn probes(&self) -> u64 {
        self.probes
    }

    /// The last cell's depth, which is minus its offset: the bytes of all cells, with the padding. 0 without cells; of a plan made by [`Plan::apart`] the sum
    /// of the cells' sizes.
    #[must_use]
    pub fn depth(&self) -> u64 {
        self.depth
    }

    /// The cell of a local, or none past the end.
    #[must_use]
    pub fn local(&self, i: u32) -> Option<usize> {
        self.lent().local(i).expect(OWN)
    }

    /// The cell of a slot, or none past the end.
    #[must_use]
    pub fn slot(&self, i: u32) -> Option<usize> {
        self.lent().slot(i).expect(OWN)
    }

    /// The area of a local, only if its cell has two or more members.
    #[must_use]
    pub fn shared(&self, i: u32) -> Option<&[Range]> {
        self.lent().shared(i).expect(OWN)
    }

    /// The slots whose cell has two or more members, rising.
    #[must_use]
    pub fn crowded(&self) -> Vec<u32> {
        self.lent().crowded().expect(OWN)
    }

    /// Items less cells.
    #[must_use]
    pub fn saved(&self) -> usize {
        self.lent().saved().expect(OWN)
    }

    /// Lowers each cell's alignment to a maximum. No cell moves: where the maximum is a power of two, each offset stays a multiple of its cell's alignment.
    pub fn cap(&mut self, most: u32) {
        calls::cap(&mut self.cells, most).expect(OWN)
    }
}
