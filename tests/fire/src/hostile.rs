//! Tables that nobody would write.

use crate::random::Random;
use crate::script::{header, NONE};

/// Noise, noise behind a right header, or small fields behind right counts.
pub fn table(random: &mut Random, into: &mut Vec<u8>) {
    into.clear();
    match random.below(4) {
        0 => noise(random, 700, into),
        1 => {
            header(random.word(), random.word(), random.word(), into);
            noise(random, 300, into);
        }
        2 => {
            let counts = counts(random, into);
            for _ in 0..16 * (counts.0 + counts.1) {
                into.push(random.byte());
            }
        }
        _ => small_fields(random, into),
    }
    if random.one_in(8) {
        into.truncate(random.below(40));
    } else if random.one_in(64) {
        // Longer than any table that passes.
        into.resize(random.below(70_000), random.byte());
    }
}

fn noise(random: &mut Random, most: usize, into: &mut Vec<u8>) {
    for _ in 0..random.below(most) {
        into.push(random.byte());
    }
}

/// A header with the counts that it returns.
fn counts(random: &mut Random, into: &mut Vec<u8>) -> (usize, usize) {
    let (p, t) = (random.below(8), random.below(8));
    let expected = if random.one_in(3) {
        NONE
    } else {
        random.small(p + 1)
    };
    header(p as u16, t as u16, expected, into);
    (p, t)
}

/// Kinds that exist, and fields that are numbers of records or nearly so; many are zero.
fn small_fields(random: &mut Random, into: &mut Vec<u8>) {
    let (p, t) = counts(random, into);
    let zeros = random.between(1, 6);
    for record in 0..p + t {
        let kinds = if record < p { 9 } else { 15 };
        into.push(random.small(kinds) as u8);
        into.push(if random.one_in(3) {
            random.small(6) as u8
        } else {
            0
        });
        for _ in 0..7 {
            let field = if random.one_in(zeros) {
                random.small(p + t + 1)
            } else {
                0
            };
            into.extend_from_slice(&field.to_le_bytes());
        }
    }
}
