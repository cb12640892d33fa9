//! Lists lent to the library and to the independent program, each with words before and behind it that must stay.

pub const REDZONE: usize = 16;

/// Two equal lists.
pub struct Twice<W> {
    pub ours: Lent<W>,
    pub theirs: Lent<W>,
}

impl<W: Copy + PartialEq> Twice<W> {
    pub fn of(list: &[W], guard: W) -> Twice<W> {
        let words = [&[guard; REDZONE], list, &[guard; REDZONE]].concat();
        Twice { ours: Lent(words.clone()), theirs: Lent(words) }
    }

    /// Changes both alike.
    pub fn change(&mut self, how: impl Fn(&mut [W])) {
        how(self.ours.list());
        how(self.theirs.list());
    }

    /// Whether both are alike, the words around them too.
    pub fn alike(&self) -> bool {
        self.ours.0 == self.theirs.0
    }
}

pub struct Lent<W>(Vec<W>);

impl<W> Lent<W> {
    /// The list itself.
    pub fn list(&mut self) -> &mut [W] {
        let end = self.0.len() - REDZONE;
        &mut self.0[REDZONE..end]
    }

    /// As many words from the list's start on; they may reach beyond its end.
    pub fn words(&mut self, length: usize) -> &mut [W] {
        &mut self.0[REDZONE..][..length]
    }
}
