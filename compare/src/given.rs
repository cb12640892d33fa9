//! What every call is given: numbers and a design.

use compare::model::Geometry;
use std::fmt;

/// v, k, g, u and the design, tested or not. A call that takes fewer passes those it takes; of fill `list` is the list to
/// fill.
#[derive(Clone, Debug, Default, PartialEq)]
pub struct Given {
    pub v: u32,
    pub k: u32,
    pub g: u32,
    pub u: u32,
    pub list: Vec<u16>,
}

impl Given {
    pub fn geometry<'a>(&self, design: &'a [u16]) -> Geometry<'a> {
        Geometry { v: self.v, k: self.k, g: self.g, u: self.u, design }
    }
}

impl fmt::Display for Given {
    /// The list alone; with `#` the whole of it, else its first numbers.
    fn fmt(&self, f: &mut fmt::Formatter) -> fmt::Result {
        let shown = if f.alternate() { self.list.len() } else { self.list.len().min(24) };
        let more = if shown < self.list.len() { " …" } else { "" };
        let numbers: Vec<String> = self.list[..shown].iter().map(u16::to_string).collect();
        write!(f, "length={} list={}{more}", self.list.len(), numbers.join(" "))
    }
}
