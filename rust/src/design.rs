//! Designs: which groups stand in which tuple.

use crate::lent;
use crate::numbers::length;
use crate::refusal::Refusal;
use std::borrow::Cow;

/// A checked design: v groups in rows ("tuples") of k, so that every pair of groups stands together in exactly one row. Its
/// list is owned or borrowed.
#[derive(Clone, Debug, PartialEq, Eq)]
pub struct Design<'a> {
    v: u32,
    k: u32,
    list: Cow<'a, [u16]>,
}

impl Design<'static> {
    /// The held design of v groups: v is 7, 13, 21, 31, 57, 73 or 91. Else [`Refusal::NotHeld`].
    ///
    /// ```
    /// use himzolven::{Design, Refusal};
    ///
    /// let design = Design::held(7)?;
    /// assert_eq!((design.v(), design.k()), (7, 3));
    /// assert_eq!(design.list()[18..], [0, 2, 6]);
    /// assert_eq!(Design::held(51), Err(Refusal::NotHeld));
    /// # Ok::<(), Refusal>(())
    /// ```
    pub fn held(v: u32) -> Result<Design<'static>, Refusal> {
        // An empty list tells first whether v is held: then the length is refused, and so v is small below.
        if lent::fill(v, &mut []) == Err(Refusal::NotHeld) {
            return Err(Refusal::NotHeld);
        }
        // A difference set has each of the v-1 differences once, so k(k-1) = v-1, and its design has v rows.
        let k = (2..v).find(|k| k * (k - 1) == v - 1).expect("a held v has a difference set");
        let mut list = vec![0; length((v * k).into())];
        lent::fill(v, &mut list)?;
        Ok(Design { v, k, list: list.into() })
    }
}

impl<'a> Design<'a> {
    /// A design of one's own: v groups in rows of k, row after row. Refusals 2 to 5.
    ///
    /// ```
    /// use himzolven::{Design, Refusal, Tuple};
    ///
    /// let all_pairs_of_three = Design::new(3, 2, vec![0, 1, 0, 2, 1, 2])?;
    /// assert_eq!(all_pairs_of_three.list().len(), 6);
    /// assert_eq!(Design::new(3, 2, &[0, 1, 2, 0, 1, 2]), Err(Refusal::BadRow { row: Tuple(1) }));
    /// # Ok::<(), Refusal>(())
    /// ```
    pub fn new(v: u32, k: u32, list: impl Into<Cow<'a, [u16]>>) -> Result<Design<'a>, Refusal> {
        let list = list.into();
        lent::check(v, k, &list)?;
        Ok(Design { v, k, list })
    }

    /// How many groups there are.
    pub fn v(&self) -> u32 {
        self.v
    }

    /// How many groups stand in a row.
    pub fn k(&self) -> u32 {
        self.k
    }

    /// The group numbers, row after row.
    pub fn list(&self) -> &[u16] {
        &self.list
    }
}
