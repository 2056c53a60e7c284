//! slots.rs leaves ranges that touch as two; the component lists the same points.
use rucc_regalloc::live::Range;

/// An area of slots.rs with the ranges that touch joined: the same points, as the component lists them.
pub fn touching_joined(area: &[Range]) -> Vec<Range> {
    let mut joined: Vec<Range> = Vec::new();
    for &r in area {
        match joined.last_mut() {
            Some(last) if last.end.checked_add(1) == Some(r.start) => last.end = r.end,
            _ => joined.push(r),
        }
    }
    joined
}
