//! The functions that count W, by document 01's formula: 8 × (records + blocks × row words + ranges + ⌈V/64⌉), each term where the entry is lent it.
use crate::cases::Random;

extern "C" {
    fn slots_work_words(
        v: u32, blocks: u32, edges: u32, insts: u32, operands: u32, crossings: u32, locals: u32, slots: u32, addresses: u32, ends: u32, pieces: u32,
        assigned: u32, moves: u32, ranges: u32,
    ) -> u64;
    fn slots_fit_words(wants: u32, ranges: u32) -> u64;
    fn slots_graph_words(blocks: u32, edges: u32, words: u32) -> u64;
    fn slots_reach_words(v: u32, blocks: u32, insts: u32, operands: u32, crossings: u32, locals: u32, addresses: u32, ends: u32) -> u64;
    fn slots_moved_words(v: u32, blocks: u32, insts: u32, operands: u32, moves: u32) -> u64;
    fn slots_spilled_words(v: u32, assigned: u32) -> u64;
    fn slots_area_words(blocks: u32, edges: u32, locals: u32, touches: u32, ends: u32, ranges: u32) -> u64;
}

fn w(records: &[u32], blocks: u32, row: u128, ranges: u32, v: u32) -> u128 {
    8 * (records.iter().map(|&n| u128::from(n)).sum::<u128>() + u128::from(blocks) * row + u128::from(ranges) + u128::from(v).div_ceil(64))
}

/// Any numbers, small ones, and the largest.
pub fn compare(count: u64, seed: u64) {
    for own in seed..seed + count {
        let mut r = Random::seeded(own);
        let mut any = || match r.below(4) {
            0 => u32::MAX - r.below(2),
            1 => r.number(),
            _ => r.below(200),
        };
        let n: [u32; 14] = std::array::from_fn(|_| any());
        let [v, b, e, i, o, x, l, s, a, k, p, q, m, ranges] = n;
        let row = u128::from(l).div_ceil(64);
        // SAFETY: numbers only.
        let told = unsafe {
            [
                (slots_work_words(v, b, e, i, o, x, l, s, a, k, p, q, m, ranges), w(&n[1..13], b, row, ranges, v)),
                (slots_fit_words(s, ranges), w(&[s], 0, 0, ranges, 0)),
                (slots_graph_words(b, e, x), w(&[b, e], b, u128::from(x), 0, 0)),
                (slots_reach_words(v, b, i, o, x, l, a, k), w(&[b, i, o, x, l, a, k], b, row, 0, v)),
                (slots_moved_words(v, b, i, o, m), w(&[b, i, o, m], 0, 0, 0, v)),
                (slots_spilled_words(v, q), w(&[q], 0, 0, 0, v)),
                (slots_area_words(b, e, l, p, k, ranges), w(&[b, e, l, p, k], b, row, ranges, 0)),
            ]
        };
        for (at, (given, wanted)) in told.into_iter().enumerate() {
            // of a graph with very many words to a row it is more than 64 bits hold: then the largest number
            assert_eq!(u128::from(given), wanted.min(u128::from(u64::MAX)), "seed {own}: function {at} of {n:?}");
        }
    }
    println!("W, seeds {seed} to {}: {} calls, no difference", seed + count - 1, 7 * count);
}
