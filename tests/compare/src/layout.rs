//! Where cells lie in the frame, a plain model of document 02's words: slots.rs lays nothing out.

/// "A depth over 2,147,483,647" is refused.
const DEEPEST: u64 = 2_147_483_647;

/// The last cell's depth, 0 with no cells, and the offset of each cell.
#[derive(Clone, Debug, Default, PartialEq)]
pub struct Layout {
    pub depth: u64,
    pub offsets: Vec<i32>,
}

/// A layout, or number 12 or 13 and "the first such cell".
pub type Laid = Result<Layout, (u32, u32)>;

/// 1, 2, 4 and so on up to 2,147,483,648; 0 is none.
fn power_of_two(align: u32) -> bool {
    (0..32).any(|k| u64::from(align) == 1u64 << k)
}

/// "Rounded up to its alignment": the least multiple that is not below.
fn rounded(depth: u64, align: u64) -> u64 {
    match depth % align {
        0 => depth,
        over => depth - over + align,
    }
}

/// What document 02 wants proved: the bytes of a cell, from its offset on, lie below those of the cell before and of the frame base, and each offset is a multiple of its alignment.
fn claimed(cells: &[(u32, u32)], offsets: &[i32]) {
    let mut above = 0;
    for (&(size, align), &offset) in cells.iter().zip(offsets) {
        let offset = i64::from(offset);
        assert!(offset + i64::from(size) <= above && offset % i64::from(align) == 0, "cells {cells:?} at {offsets:?}");
        above = offset;
    }
}

/// Cells by size and alignment, "below the frame base in cell order". All are tested for 12 before there is a depth.
pub fn laid(cells: &[(u32, u32)]) -> Laid {
    if let Some(cell) = cells.iter().position(|&(_, align)| !power_of_two(align)) {
        return Err((12, cell as u32));
    }
    let mut layout = Layout::default();
    for (cell, &(size, align)) in cells.iter().enumerate() {
        // "the one before plus the cell's size, rounded up to its alignment"
        layout.depth = rounded(layout.depth + u64::from(size), u64::from(align));
        if layout.depth > DEEPEST {
            return Err((13, cell as u32));
        }
        // "the offset is minus that depth, as a signed 32-bit number"
        layout.offsets.push(i32::try_from(-(layout.depth as i64)).expect("not below the deepest"));
    }
    claimed(cells, &layout.offsets);
    Ok(layout)
}
