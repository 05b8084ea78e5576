//! Changes of a table's bytes.

use crate::random::Random;

/// One change, or several.
pub fn table(random: &mut Random, bytes: &mut Vec<u8>) {
    let many = if random.one_in(3) {
        random.between(2, 4)
    } else {
        1
    };
    for _ in 0..many {
        if bytes.len() < 16 {
            return bytes.push(random.byte());
        }
        once(random, bytes);
    }
}

fn once(random: &mut Random, bytes: &mut Vec<u8>) {
    let at = random.below(bytes.len());
    match random.below(16) {
        0 => bytes[at] ^= 1 << random.below(8),
        1 => bytes[at] = random.byte(),
        2 | 3 => field(random, bytes),
        4 => swap_records(random, bytes),
        5 => copy_record(random, bytes),
        6 => bytes.truncate(at),
        7 => extend(random, bytes),
        8 => kind(random, bytes),
        9 => swap_fields(random, bytes),
        10 => header(random, bytes),
        _ => name(random, bytes),
    }
}

fn word(bytes: &[u8], at: usize) -> u16 {
    u16::from_le_bytes([bytes[at], bytes[at + 1]])
}

fn set(bytes: &mut [u8], at: usize, value: u16) {
    bytes[at..at + 2].copy_from_slice(&value.to_le_bytes());
}

/// A 16-bit field becomes a value that is special, or near the one that it had.
fn field(random: &mut Random, bytes: &mut [u8]) {
    let at = 2 * random.below(bytes.len() / 2);
    let (p, t) = (word(bytes, 6), word(bytes, 8));
    let old = word(bytes, at);
    let near = [old.wrapping_add(1), old.wrapping_sub(1), old ^ 256];
    let special = [
        0,
        1,
        65_535,
        65_534,
        p,
        p.wrapping_sub(1),
        t,
        t.wrapping_sub(1),
    ];
    let value = if random.one_in(2) {
        random.pick(&near)
    } else {
        random.pick(&special)
    };
    set(bytes, at, value);
}

fn header(random: &mut Random, bytes: &mut [u8]) {
    let at = random.below(16);
    bytes[at] = if random.one_in(2) {
        random.byte()
    } else {
        bytes[at] ^ 1
    };
}

/// Where a record behind the header begins, if there is one.
fn record(random: &mut Random, bytes: &[u8]) -> Option<usize> {
    let many = (bytes.len() - 16) / 16;
    (many > 0).then(|| 16 + 16 * random.below(many))
}

fn swap_records(random: &mut Random, bytes: &mut [u8]) {
    if let (Some(a), Some(b)) = (record(random, bytes), record(random, bytes)) {
        for i in 0..16 {
            bytes.swap(a + i, b + i);
        }
    }
}

fn copy_record(random: &mut Random, bytes: &mut [u8]) {
    if let (Some(from), Some(to)) = (record(random, bytes), record(random, bytes)) {
        bytes.copy_within(from..from + 16, to);
    }
}

fn kind(random: &mut Random, bytes: &mut [u8]) {
    let Some(at) = record(random, bytes) else {
        return;
    };
    // Kinds with the same fields first: such a table still passes the tests.
    bytes[at] = match bytes[at] {
        old @ 2..=4 if random.one_in(2) => 2 + old % 3,
        old @ (5 | 6) if random.one_in(2) => 11 - old,
        old @ (7 | 8) if random.one_in(2) => 15 - old,
        _ => random.small(15) as u8,
    };
}

fn swap_fields(random: &mut Random, bytes: &mut [u8]) {
    let Some(at) = record(random, bytes) else {
        return;
    };
    let (a, b) = (at + 2 * random.between(1, 7), at + 2 * random.between(1, 7));
    let (first, second) = (word(bytes, a), word(bytes, b));
    set(bytes, a, second);
    set(bytes, b, first);
}

/// Another name, datatype or predicate in a record, or another parameter.
fn name(random: &mut Random, bytes: &mut [u8]) {
    let (Some(at), Some(other)) = (record(random, bytes), record(random, bytes)) else {
        return;
    };
    let (fields, others) = (names(bytes, at), names(bytes, other));
    if fields.is_empty() {
        return;
    }
    let field = at + random.pick(fields);
    let value = match random.below(4) {
        0 => word(bytes, field) ^ (256 << random.below(8)),
        1 | 2 if !others.is_empty() => word(bytes, other + random.pick(others)),
        _ => random.small(6),
    };
    set(bytes, field, value);
}

/// Which bytes of the record at `at` begin a name, a datatype or a predicate.
pub fn names(bytes: &[u8], at: usize) -> &'static [usize] {
    let propositions = 16 * (1 + word(bytes, 6) as usize);
    match (at < propositions, bytes[at], bytes[at + 1]) {
        (true, 5 | 6, _) => &[2, 4],
        (true, 7, many) => &[2, 8, 10, 12, 14][..1 + usize::from(many.min(4))],
        (false, 4, 2) => &[2, 4],
        (false, 0 | 4, _) => &[4],
        (false, 6 | 9, _) => &[4, 6],
        (false, 12, 2) => &[2],
        _ => &[],
    }
}

fn extend(random: &mut Random, bytes: &mut Vec<u8>) {
    let more = random.pick(&[1, 15, 16, 17, 32]);
    for _ in 0..more {
        bytes.push(if random.one_in(2) { 0 } else { random.byte() });
    }
    if random.one_in(2) && more % 16 == 0 {
        let terms = word(bytes, 8).wrapping_add(more as u16 / 16);
        set(bytes, 8, terms);
    }
}
