//! The parts of a job over its blocks and edges alone.
use crate::{part_calls as calls, Block, Edge, Refusal};

/// Blocks and edges, as they are lent to the parts that need no more. A place is a block's place in the line, from 0 on.
#[derive(Clone, Copy, Debug, PartialEq, Eq)]
pub struct Graph<'a> {
    /// The blocks in line order, without gaps.
    pub blocks: &'a [Block],
    /// The edges, by block numbers.
    pub edges: &'a [Edge],
    /// The last point there is.
    pub points: u32,
}

/// Which edges [`Graph::flowed`] follows.
#[derive(Clone, Copy, Debug, PartialEq, Eq)]
pub enum Over {
    /// A bit is set where a touched block reaches this one.
    Predecessors = 0,
    /// A bit is set where this block reaches a touched one.
    Successors = 1,
}

/// The components of a graph.
#[derive(Clone, Debug, PartialEq, Eq)]
pub struct Components {
    /// How many there are.
    pub count: usize,
    /// The number of each place's component: two places have one exactly when each reaches the other, and an edge that leaves a component enters a
    /// lower-numbered one.
    pub which: Vec<u32>,
}

impl Graph<'_> {
    /// The components.
    ///
    /// # Errors
    /// Blocks or edges out of their limits, out of line or without a block.
    pub fn components(self) -> Result<Components, Refusal> {
        let mut which = vec![0; self.blocks.len()];
        let count = calls::components(self, &mut which, &mut self.work(0))?;
        Ok(Components { count: count as usize, which })
    }

    /// Every place once: a place with an edge to one that does not reach it stands before that one.
    ///
    /// # Errors
    /// As [`Graph::components`].
    pub fn settling(self) -> Result<Vec<u32>, Refusal> {
        let mut order = vec![0; self.blocks.len()];
        calls::settling(self, &mut order, &mut self.work(0))?;
        Ok(order)
    }

    /// Rows of `words` 64-bit words, one to a block: a bit is set exactly when a block with that bit in `touched` is reached over one or more edges, or reaches
    /// this one.
    ///
    /// # Errors
    /// As [`Graph::components`], and `touched` that has not `words` words for each block.
    pub fn flowed(self, over: Over, touched: &[u64], words: usize) -> Result<Vec<u64>, Refusal> {
        let mut out = vec![0; touched.len()];
        calls::flowed(self, over as u32, touched, words, &mut out, &mut self.work(touched.len()))?;
        Ok(out)
    }

    /// Rows of `words` 64-bit words, one to a block: what arrives at a block is what leaves a predecessor, or arrives there and passes it.
    ///
    /// # Errors
    /// As [`Graph::flowed`], of `leaves` and of `passes`.
    pub fn spread(self, leaves: &[u64], passes: &[u64], words: usize) -> Result<Vec<u64>, Refusal> {
        let mut out = vec![0; leaves.len()];
        calls::spread(self, leaves, passes, words, &mut out, &mut self.work(leaves.len()))?;
        Ok(out)
    }

    /// Work space for rows of so many words in all, rounded up to whole rows.
    fn work(self, rows: usize) -> Vec<u64> {
        if self.blocks.is_empty() || self.blocks.len() > 4_096 || self.edges.len() > 16_384 {
            return Vec::new(); // refused for its counts, whatever the work space
        }
        let words = rows.div_ceil(self.blocks.len());
        vec![0; usize::try_from(calls::graph_words(self.blocks.len(), self.edges.len(), words)).unwrap_or(0)]
    }
}
