//! Sheets as numbers that are damaged, each by the questions 4, 7 and 8.

use super::numbers::Numbers;
use crate::random::Random;

/// Numbers out of range, states beyond n, cells outside n and k: one fault, two or none.
pub fn damage_numbers(r: &mut Random, a: &mut Numbers) {
    const HUGE: [usize; 6] = [usize::MAX, 1 << 32, (1 << 32) + 2, 65_536, 256, 1 << 63];
    if r.chance(25) {
        a.sets.resize(129 + r.below(40), 0);
    }
    let faults = [0, 0, 0, 1, 1, 2][r.below(6)];
    for _ in 0..faults {
        let end = a.sets.len();
        match r.below(12) {
            0 => a.n = [0, 17, 18, 16, HUGE[r.below(6)]][r.below(5)],
            1 => a.k = [0, 9, 10, 8, HUGE[r.below(6)]][r.below(5)],
            2 => a.n = a.n.wrapping_sub(1),
            3 => a.k = a.k.wrapping_sub(1),
            4 => a.initial |= 1 << r.below(16),
            5 => a.recurring |= 1 << r.below(16),
            6 | 7 => a.sets[r.below(128)] |= 1 << r.below(16),
            8 => a.sets[127 - r.below(8)] |= 1 << r.below(16),
            9 => a.sets[r.below(end)] |= 1 << r.below(16),
            10 => a.sets[end - 1] = 1 << r.below(16),
            _ => a.sets[r.below(128)] = 0,
        }
    }
}

/// Marks that are no transitions, marks beside must-recur states, must-recur states beside marks, other numbers for the edition: so often in
/// a hundred.
pub fn damage_marks(r: &mut Random, a: &mut Numbers, often: usize) {
    const EDITIONS: [usize; 9] = [0, 1, 2, 3, 258, 65_538, (1 << 32) + 2, 1 << 63, usize::MAX];
    if r.chance(25) {
        a.marks.resize(129 + r.below(40), 0);
    }
    if !r.chance(often) {
        return;
    }
    let (states, letters, end) = (a.n.clamp(1, 16), a.k.clamp(1, 8), a.marks.len());
    let cell = 8 * r.below(states) + r.below(letters);
    match r.below(10) {
        0 => a.marks[r.below(128)] |= 1 << r.below(16),
        1 | 2 => a.marks[cell] |= 1 << r.below(states),
        3 => a.marks[r.below(end)] |= 1 << r.below(16),
        4 if end > 128 => a.marks[128 + r.below(end - 128)] = 1 << r.below(16),
        4 | 5 => a.marks[end - 1] = 1 << r.below(16),
        6 => a.recurring |= 1 << r.below(states),
        7 => a.edition = EDITIONS[r.below(9)],
        8 => a.sets[cell] = 0,
        _ => a.marks[..128].copy_from_slice(&a.sets[..128]),
    }
}
