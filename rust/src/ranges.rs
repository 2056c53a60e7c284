//! The functions over lists of ranges. A list of more than 65,536 ranges is refused with [`Kind::Count`](crate::Kind::Count).
use crate::calls::{self, Columns};
use crate::{Range, Refusal};

impl Columns {
    fn of(ranges: &[Range]) -> Columns {
        Columns { start: ranges.iter().map(|r| r.start).collect(), end: ranges.iter().map(|r| r.end).collect() }
    }

    fn room(ranges: usize) -> Columns {
        Columns { start: vec![0; ranges], end: vec![0; ranges] }
    }

    fn first(&self, ranges: u64) -> Vec<Range> {
        self.start.iter().zip(&self.end).take(ranges as usize).map(|(&start, &end)| Range { start, end }).collect()
    }
}

/// The ranges sorted by start, then end, those joined that share a point or touch (1–4 and 5–6): two lists have the same answer exactly when they cover the same points.
///
/// # Errors
/// [`Kind::Want`](crate::Kind::Want) at a reversed range.
pub fn merged(ranges: &[Range]) -> Result<Vec<Range>, Refusal> {
    let mut out = Columns::room(ranges.len());
    let n = calls::merged(&Columns::of(ranges), &mut out)?;
    Ok(out.first(n))
}

/// The list with one range more: its last range lengthened if the new one starts on the point after its end, else the new one appended.
///
/// # Errors
/// [`Kind::Want`](crate::Kind::Want) at a reversed range; the new one comes after the list's.
pub fn joined(ranges: &[Range], new: Range) -> Result<Vec<Range>, Refusal> {
    let mut out = Columns::room(ranges.len() + 1);
    let n = calls::joined(&Columns::of(ranges), new, &mut out)?;
    Ok(out.first(n))
}

/// What [`merged`] makes of two lists together; each is in order, and its ranges share no point.
///
/// # Errors
/// [`Kind::Want`](crate::Kind::Want) at a range that is reversed, or starts no later than the one before it ends; the second list's are counted on.
pub fn union(one: &[Range], other: &[Range]) -> Result<Vec<Range>, Refusal> {
    let mut out = Columns::room(one.len() + other.len());
    let n = calls::union(&Columns::of(one), &Columns::of(other), &mut out)?;
    Ok(out.first(n))
}

/// Whether some point is in both lists; each is in order, and its ranges share no point.
///
/// # Errors
/// As [`union`].
pub fn clashes(one: &[Range], other: &[Range]) -> Result<bool, Refusal> {
    calls::clashes(&Columns::of(one), &Columns::of(other))
}
