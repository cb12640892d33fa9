//! Ways to spoil the arguments of a valid call, each aimed at one refusal of document 01. An aim may miss (another
//! refusal comes first, or the call stays valid); what was really answered is what the run counts.

use crate::call::{Call, Kind};
use crate::given::Given;
use compare::model::{Model, Plant};
use compare::random::Random;

/// Spoils a valid call so that it should be refused with the number.
pub fn spoil(call: &mut Call, number: u32, random: &mut Random) {
    match number {
        9 if call.kind == Kind::Plan => call.disk = beyond(call.disk, random),
        9 => disk_and_unit(call, random),
        10 => call.user_unit = beyond(call.user_unit, random),
        14 => call.room = shorter(call.room, random),
        _ => spoil_given(&mut call.given, number, random),
    }
}

/// Spoils the numbers and the design that a valid call is given, for one of the refusals 2 to 6.
pub fn spoil_given(given: &mut Given, number: u32, random: &mut Random) {
    match number {
        2 => limits(given, random),
        3 => lengths(given, random),
        4 => rows(given, random),
        5 => pairs(given, random),
        6 => group_and_unit(given, random),
        _ => unreachable!("no call of the interface has this refusal"),
    }
}

/// Half of the numbers, or so, become wild.
pub fn wild_numbers(given: &mut Given, random: &mut Random) {
    for number in [&mut given.v, &mut given.k, &mut given.g, &mut given.u] {
        *number = if random.one_in(2) { *number } else { random.wild() };
    }
}

/// A number beyond a bound: just there, one further, where a narrower number would wrap, or anywhere above.
pub fn beyond(bound: u32, random: &mut Random) -> u32 {
    match random.below(5) {
        0 | 1 => bound,
        2 => bound + 1 + random.below(16) as u32,
        3 => bound.wrapping_add(1 << random.pick(&[16, 24, 31])),
        _ => random.wild().max(bound),
    }
}

/// 14: a list shorter than the plan, by one number, by a triple, by two thirds, or by any number.
fn shorter(needed: usize, random: &mut Random) -> usize {
    let any = random.below(needed);
    random.pick(&[needed - 1, needed - 1, needed - 2, needed - 3, needed / 3, 0, any, any])
}

/// 2: v or k beyond its limits, among them k > v, and numbers that become valid when their high bits are lost.
fn limits(given: &mut Given, random: &mut Random) {
    let high = 1u32 << random.pick(&[8, 16, 24, 31]);
    match random.below(7) {
        0 => given.v = random.pick(&[0, 1, 92, 93, 127, 128, 255, 256]),
        1 => given.v = random.wild(),
        2 => given.k = random.pick(&[0, 1, 11, 12, 13, 15, 16]),
        3 => given.k = random.wild(),
        4 => given.v = given.v.wrapping_add(high),
        5 => given.k = given.k.wrapping_add(high),
        _ => {
            given.v = 2 + random.below(8) as u32;
            given.k = given.v + 1 + random.below(10 - given.v as usize) as u32;
        }
    }
}

/// 3: a list of another length, or v and k for which r or b is not whole.
fn lengths(given: &mut Given, random: &mut Random) {
    let k = row_length(given);
    let ways = if given.list.is_empty() { 1 } else { 9 };
    match random.below(ways) {
        0 => given.list.push(random.below(100) as u16),
        1 => drop(given.list.pop()),
        2 => given.list.truncate(given.list.len() - k),
        3 => given.list.extend_from_within(..k),
        4 => given.list.clear(),
        5 => given.list.truncate(random.below(given.list.len())),
        6 => given.list.resize(given.list.len() + if random.one_in(30) { 65536 } else { 256 }, 0),
        _ => not_whole(given, random),
    }
}

/// Limits kept, r or b not whole: any such v and k, with the list as it was, or with as many rows as b rounded down.
/// Half of the time a pair is sought in which just one of r and b is not whole.
fn not_whole(given: &mut Given, random: &mut Random) {
    let one_only = random.one_in(2);
    loop {
        let v = 2 + random.below(90) as u32;
        let k = 2 + random.below(9) as u32;
        let (r, b) = ((v - 1).is_multiple_of(k - 1), (v * (v - 1)).is_multiple_of(k * (k - 1)));
        if k > v || (r && b) || one_only && !(r || b) {
            continue;
        }
        (given.v, given.k) = (v, k);
        if !random.one_in(3) {
            let tuples = v * (v - 1) / (k * (k - 1));
            given.list = (0..tuples).flat_map(|_| random.ascending(k as usize, v as usize)).collect();
        }
        return;
    }
}

/// The length of the list's rows; 1 where an earlier spoiling left none.
fn row_length(given: &Given) -> usize {
    (given.k as usize).clamp(1, given.list.len().max(1))
}

/// The start of some row of the list, often the first or the last.
fn some_row(given: &Given, random: &mut Random) -> usize {
    let k = row_length(given);
    let rows = (given.list.len() / k).max(1);
    let row = match random.below(4) {
        0 => 0,
        1 => rows - 1,
        _ => random.below(rows),
    };
    row * k
}

/// 4: a number out of range or a row that does not ascend, in one row or in a few.
fn rows(given: &mut Given, random: &mut Random) {
    let k = row_length(given);
    if given.list.len() < 2 || k < 2 {
        return;
    }
    for _ in 0..random.pick(&[1, 1, 2, 5]) {
        let start = some_row(given, random);
        let (v, row) = (given.v as u16, &mut given.list[start..][..k]);
        let (any, next) = (random.below(k), random.below(k - 1));
        match random.below(8) {
            0 => row[k - 1] = v,
            1 => row[any] = v.wrapping_add(random.pick(&[0, 1, 2, 256, 32768])),
            2 => row[any] = random.pick(&[65535, 32768, 32767, 256, 255, 128, 127]),
            3 => row[any] = row[any].wrapping_add(v),
            4 => row[next] = row[next + 1],
            5 => row.swap(next, next + 1),
            6 => row.reverse(),
            _ => row[next + 1] = row[next],
        }
    }
}

/// 5: the rows ascend and stay in range, but some pair stands in no row or in several.
fn pairs(given: &mut Given, random: &mut Random) {
    let k = row_length(given);
    if given.list.len() < 2 * k || given.v as usize <= k || given.v > 91 {
        return;
    }
    let tries = if given.list.len() * given.v as usize <= 2000 && random.one_in(4) { 12 } else { 1 };
    let model = Model::new(Plant::NONE);
    let mut latest = (0, given.list.clone());
    for _ in 0..tries {
        let mut list = given.list.clone();
        pairs_once(&mut list, k, given.v as usize, random);
        let place = model.check(given.v, given.k, &list).map_or_else(|refusal| refusal.place, |()| 0);
        if tries == 1 || place >= latest.0 {
            latest = (place, list);
        }
    }
    given.list = latest.1;
}

/// One such change. With several tries the caller keeps the one whose lowest wrong pair comes latest.
fn pairs_once(list: &mut [u16], k: usize, v: usize, random: &mut Random) {
    let rows = list.len() / k;
    let (from, to) = (random.below(rows) * k, random.below(rows) * k);
    match random.below(5) {
        0 => list.copy_within(from..from + k, to),
        1 => list[to..to + k].copy_from_slice(&random.ascending(k, v)),
        2 => exchange(list, from, to, k, random),
        _ => step(&mut list[to..to + k], v, random),
    }
}

/// Exchanges one number of two rows where both rows stay free of doubles.
fn exchange(list: &mut [u16], from: usize, to: usize, k: usize, random: &mut Random) {
    let (x, y) = (from + random.below(k), to + random.below(k));
    if list[from..from + k].contains(&list[y]) || list[to..to + k].contains(&list[x]) {
        return;
    }
    list.swap(x, y);
    list[from..from + k].sort();
    list[to..to + k].sort();
}

/// Changes one number of a row to another one that is not in the row, and sorts.
fn step(row: &mut [u16], v: usize, random: &mut Random) {
    let at = random.below(row.len());
    let free: Vec<u16> = (0..v as u16).filter(|group| !row.contains(group)).collect();
    row[at] = random.pick(&free);
    row.sort();
}

/// 6: g not a prime from 2 to 13, or below k, or u not 1 to 4,096.
fn group_and_unit(given: &mut Given, random: &mut Random) {
    let high = 1u32 << random.pick(&[8, 16, 24, 31]);
    match random.below(8) {
        0 | 1 => given.g = random.pick(&[0, 1, 4, 6, 8, 9, 10, 12, 14, 15, 16, 17, 19]),
        2 => given.g = random.below(given.k.clamp(1, 16) as usize) as u32,
        3 => given.g = random.wild(),
        4 => given.g = given.g.wrapping_add(high),
        5 => given.u = random.pick(&[0, 0, 4097, 4097, 4098, 8192, 65535, 65536]),
        6 => given.u = random.wild(),
        _ => given.u = given.u.wrapping_add(high).max(4097),
    }
}

/// 9: a disk or a unit number too high, or both. The call comes with the bounds themselves.
fn disk_and_unit(call: &mut Call, random: &mut Random) {
    let (disks, units) = (call.disk, call.unit);
    (call.disk, call.unit) = match random.below(4) {
        0 => (beyond(disks, random), beyond(units, random)),
        1 => (beyond(disks, random), random.below(units.max(1) as usize) as u32),
        2 => (random.below(disks.max(1) as usize) as u32, beyond(units, random)),
        _ => (units.min(disks.saturating_sub(1)), disks.max(units)),
    };
}
