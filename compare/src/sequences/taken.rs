//! Which arrays a run took.

use super::array::Array;
use std::collections::BTreeMap;

/// The bytes of each array, how often each g was taken, and how often a u of each range.
#[derive(Default)]
pub struct Taken {
    bytes: Vec<usize>,
    groups: BTreeMap<u32, u64>,
    units: BTreeMap<(u32, u32), u64>,
}

/// Ranges of u that are counted apart.
const RANGES: [(u32, u32); 6] = [(1, 1), (2, 31), (32, 511), (512, 4094), (4095, 4095), (4096, 4096)];

impl Taken {
    pub fn add(&mut self, array: &Array) {
        let (g, u) = (array.given.g, array.given.u);
        self.bytes.push(array.bytes());
        *self.groups.entry(g).or_default() += 1;
        let range = RANGES.into_iter().find(|(least, most)| (*least..=*most).contains(&u));
        range.into_iter().for_each(|range| *self.units.entry(range).or_default() += 1);
    }

    pub fn print(&self, more: &str) {
        let count = self.bytes.len().max(1);
        let (least, most) = (self.bytes.iter().min().unwrap_or(&0), self.bytes.iter().max().unwrap_or(&0));
        let mean = self.bytes.iter().sum::<usize>() / count;
        let groups: Vec<String> = self.groups.iter().map(|(g, times)| format!("{g} x {times}")).collect();
        let range = |((least, most), times): (&(u32, u32), &u64)| match least == most {
            true => format!("{least} x {times}"),
            false => format!("{least} to {most} x {times}"),
        };
        let units: Vec<String> = self.units.iter().map(range).collect();
        println!("{} arrays of {least} to {most} bytes ({mean} in the mean){more}", self.bytes.len());
        println!("g: {}; u: {}", groups.join(", "), units.join(", "));
    }
}
