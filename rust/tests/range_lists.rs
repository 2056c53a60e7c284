//! The functions over lists of ranges.
use slots::ranges::{clashes, joined, merged, union};
use slots::Range;

fn list(ranges: &[(u32, u32)]) -> Vec<Range> {
    ranges.iter().map(|&(start, end)| Range { start, end }).collect()
}

#[test]
fn merged_joins_what_shares_a_point_or_touches() {
    assert_eq!(merged(&list(&[(5, 9), (1, 5), (10, 12)])), Ok(list(&[(1, 12)])));
    assert_eq!(merged(&list(&[(6, 7), (1, 4)])), Ok(list(&[(1, 4), (6, 7)])));
    assert_eq!(merged(&list(&[(u32::MAX, u32::MAX), (u32::MAX - 1, u32::MAX - 1), (0, 0)])), Ok(list(&[(0, 0), (u32::MAX - 1, u32::MAX)])));
    assert_eq!(merged(&[]), Ok(vec![]));
}

#[test]
fn joined_lengthens_or_appends() {
    assert_eq!(joined(&list(&[(1, 4)]), Range::new(5, 6)), Ok(list(&[(1, 6)])));
    assert_eq!(joined(&list(&[(1, 4)]), Range::new(6, 7)), Ok(list(&[(1, 4), (6, 7)])));
    assert_eq!(joined(&[], Range::new(6, 7)), Ok(list(&[(6, 7)])));
}

#[test]
fn union_is_merged_of_both() {
    assert_eq!(union(&list(&[(1, 4), (8, 9)]), &list(&[(4, 6), (20, 21)])), Ok(list(&[(1, 6), (8, 9), (20, 21)])));
    assert_eq!(union(&list(&[(1, 4), (5, 5), (9, 9)]), &list(&[(6, 7), (10, 21)])), Ok(list(&[(1, 7), (9, 21)])));
}

#[test]
fn clashes_by_a_common_point() {
    assert_eq!(clashes(&list(&[(1, 4)]), &list(&[(4, 6)])), Ok(true));
    assert_eq!(clashes(&list(&[(1, 4)]), &list(&[(5, 6)])), Ok(false));
    assert!(Range::new(1, 4).overlaps(Range::new(4, 6)) && !Range::new(1, 4).overlaps(Range::new(5, 6)));
}
