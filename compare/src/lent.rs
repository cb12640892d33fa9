//! Lists lent to the proved library, with a redzone on each side.

use std::fmt::Debug;

/// What lists are made of, and what fills the redzones: a word that depends on where it stands.
pub trait Word: Copy + PartialEq + Debug {
    fn guard(at: usize) -> Self;
}

impl Word for u8 {
    fn guard(at: usize) -> u8 {
        (at.wrapping_mul(0x9E37_79B9) >> 11) as u8
    }
}

impl Word for u16 {
    fn guard(at: usize) -> u16 {
        (at.wrapping_mul(0x9E37_79B9) >> 11) as u16
    }
}

impl Word for u32 {
    fn guard(at: usize) -> u32 {
        at.wrapping_mul(0x9E37_79B9) as u32
    }
}

/// How many words of redzone lie behind a list, and at least before it.
pub const REDZONE: usize = 64;

/// A list between two redzones.
pub struct Lent<W> {
    words: Vec<W>,
    start: usize,
    length: usize,
}

impl<W: Word> Lent<W> {
    /// A copy of the list. It starts `shift` words later than it would, so that alignments differ.
    pub fn of(list: &[W], shift: usize) -> Lent<W> {
        let start = REDZONE + shift;
        let guards = |from: usize, to: usize| (from..to).map(W::guard);
        let end = start + list.len();
        let words = guards(0, start).chain(list.iter().copied()).chain(guards(end, end + REDZONE)).collect();
        Lent { words, start, length: list.len() }
    }

    /// The list, or as much of it and of what lies behind it as the length says.
    pub fn lend(&mut self, length: usize) -> &mut [W] {
        &mut self.words[self.start..][..length]
    }

    /// The list itself.
    pub fn list(&self) -> &[W] {
        &self.words[self.start..][..self.length]
    }

    /// The first word, redzones and all, that differs from that of another lent list of this length, if one does.
    pub fn difference(&self, other: &Lent<W>) -> Result<(), String> {
        assert_eq!((self.start, self.length), (other.start, other.length), "lists of one length are compared");
        if self.words == other.words {
            return Ok(());
        }
        let mut both = self.words.iter().zip(&other.words);
        let at = both.position(|(this, that)| this != that).expect("some word differs");
        let (index, this, that) = (at as i64 - self.start as i64, self.words[at], other.words[at]);
        Err(format!("at index {index} (length {}) is {this:?} and should be {that:?}", self.length))
    }
}

impl Lent<u8> {
    /// A list of zeros, none of which is stored here: the memory of a long one is there only once it is used.
    pub fn zeros(length: usize, shift: usize) -> Lent<u8> {
        let start = REDZONE + shift;
        let mut words = vec![0; start + length + REDZONE];
        for at in (0..start).chain(start + length..words.len()) {
            words[at] = u8::guard(at);
        }
        Lent { words, start, length }
    }
}

#[test]
fn a_change_is_found_in_the_list_and_beside_it() {
    let list = [7u8; 5];
    let right = Lent::of(&list, 3);
    for at in 0..right.words.len() {
        let mut lent = Lent::of(&list, 3);
        assert_eq!(lent.difference(&right), Ok(()));
        lent.words[at] ^= 1;
        let index = at as i64 - 67;
        assert!(lent.difference(&right).is_err_and(|text| text.starts_with(&format!("at index {index} "))));
    }
}
