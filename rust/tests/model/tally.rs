//! How often each call was accepted, and how often refused by which number.

use std::collections::BTreeMap;

#[derive(Default)]
pub struct Tally(BTreeMap<(&'static str, u32), u64>);

impl Tally {
    /// Counts an answer, or a refusal's number and place; number 0 is accepted.
    pub fn add<T>(&mut self, call: &'static str, reply: &Result<T, (u32, u32)>) {
        let number = reply.as_ref().err().map_or(0, |(number, _)| *number);
        *self.0.entry((call, number)).or_default() += 1;
    }

    /// Each call was accepted and was refused by each of its numbers, and nothing else happened.
    pub fn expect(&self, calls: impl Iterator<Item = (&'static str, &'static [u32])>) {
        let mut expected: Vec<(&str, u32)> = Vec::new();
        calls
            .for_each(|(call, numbers)| expected.extend([&[0], numbers].concat().iter().map(|number| (call, *number))));
        expected.sort();
        let found: Vec<(&str, u32)> = self.0.keys().copied().collect();
        assert_eq!(found, expected);
    }

    pub fn print(&self) {
        self.0.iter().for_each(|((call, number), times)| println!("{call:8} {number:2} {times:6} times"));
    }
}
