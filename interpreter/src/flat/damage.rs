//! Damaged flat lists: every cause of the list's own check, alone and in
//! company. Some damages leave a list legal.

use super::{lines_of, LINE};
use crate::random::Random;

/// Changes a word or two of a list, or its length, or its header.
pub fn damage(random: &mut Random, header: &mut Vec<i32>, list: &mut Vec<i32>) {
    for _ in 0..random.between(1, 2) {
        match random.below(24) {
            0 => {
                let at = random.below(header.len());
                header[at] = random.pick(&[-1, 0, 1, 64, 65, 257, 4_097, 8_193, i32::MIN]);
            }
            1 => header.truncate(random.below(header.len() + 1)),
            2 => list.truncate(random.below(list.len() + 1)),
            3 => list.extend([52, 0, 0, 0, 0]),
            4 => list.extend(vec![0; random.between(1, 4) as usize]),
            _ if list.is_empty() => {}
            5..=9 => jump(random, list),
            _ => word(random, list),
        }
        if header.is_empty() {
            return;
        }
    }
}

/// A distance that just leaves the list, or just does not.
fn jump(random: &mut Random, list: &mut [i32]) {
    let count = lines_of(list).len();
    if count == 0 {
        return;
    }
    let at = random.below(count);
    let target = random.pick(&[-2, -1, 0, count as i32, count as i32 + 1]);
    list[LINE * at + LINE - 1] = target - (at as i32 + 1);
}

/// Changes a word to one near it, to another word of the list, or to a number of interest.
fn word(random: &mut Random, list: &mut [i32]) {
    let at = random.below(list.len());
    list[at] = match random.below(6) {
        0 => list[at].wrapping_add(random.between(-2, 2)),
        1 => list[random.below(list.len())],
        2 => list[at] ^ random.pick(&[64, 128, 192, 256]),
        3 => random.pick(&[-1, 0, i32::MIN, i32::MAX]),
        4 => {
            random.pick(&[1, 2, 3, 4, 5, 6, 16, 17, 20, 21, 42, 43, 44, 45, 51, 52, 53, 56, 57, 58])
        }
        _ => 0,
    };
}
