//! The independent program: document 000's layout as document 01 numbers it, found by searching.
//!
//! Written from the two documents alone. Nothing here is a closed form: r and b are sought, regions are matrices of
//! labels whose rows are shifted, diagonals are walked, parts are counted while walking down the design, disks, units
//! and user units are numbered by enumerating them, and every question is answered out of the tables so filled.
//!
//! A `plant.has(Fault::…)` or `plant.or(right, Fault::…, wrong)` marks a place where a known misreading can be planted;
//! see [`fault`]. With [`Plant::NONE`] none of them is taken.

mod answer;
mod array;
mod cut;
mod design;
pub mod fault;
mod held;
mod homes;
mod layout;
mod lent;
mod plan;
mod printer;
mod rebuild;
mod region;
mod sets;
#[cfg(test)]
mod tests;

pub use answer::{Audit, Geometry, Map, Place, Refusal, Role, Sizes};
use design::Counts;
pub use fault::{Fault, Plant};
use homes::Homes;
use layout::Layout;
use sets::{InTuple, Sets};

/// "Each takes the design anew and checks it anew": each call below repeats all tests. The layout of the geometry that
/// was accepted last is kept, since filling its tables takes long, and is used again only for that same geometry.
///
/// The calls on the array are in `array` and `rebuild`, what they ask of the lent bytes in `lent`; the plan is in `plan`.
pub struct Model {
    plant: Plant,
    last: Option<Last>,
}

/// A geometry that was accepted, with its tables; the sets are walked when they are first asked for.
struct Last {
    key: Key,
    counts: Counts,
    layout: Layout,
    sets: Option<Sets>,
}

/// What the tables depend on: v, k, g and the design.
type Key = (u32, u32, u32, Vec<u16>);

impl Model {
    pub fn new(plant: Plant) -> Self {
        Model { plant, last: None }
    }

    /// "A call fills a lent list with the design of a held v; the list's length must be exactly b·k, else refusal 3."
    pub fn fill(&self, v: u32, list: &mut [u16]) -> Result<(), Refusal> {
        held::fill(v, list, self.plant)
    }

    /// Refusals 2 to 5, in this order.
    pub fn check(&self, v: u32, k: u32, design: &[u16]) -> Result<(), Refusal> {
        design::check(v, k, design, self.plant).map(|_| ())
    }

    /// Refusals 2 to 6, then the derived sizes.
    pub fn sizes(&mut self, geometry: &Geometry) -> Result<Sizes, Refusal> {
        let plant = self.plant;
        Ok(self.layout(geometry)?.sizes(geometry.u, plant))
    }

    /// Refusals 2 to 6, then 10, then the four places of a user unit.
    pub fn map(&mut self, geometry: &Geometry, user_unit: u32) -> Result<Map, Refusal> {
        let plant = self.plant;
        self.layout(geometry)?.map(user_unit, plant)
    }

    /// Refusals 2 to 6, then 9, then "the way back", looked up.
    pub fn role(&mut self, geometry: &Geometry, disk: u32, unit: u32) -> Result<Role, Refusal> {
        let plant = self.plant;
        self.layout(geometry)?.role(disk, unit, plant)
    }

    /// Tests the geometry and fills its tables, unless it is the last one again; u is tested each time.
    fn layout(&mut self, geometry: &Geometry) -> Result<&Layout, Refusal> {
        let Geometry { v, k, g, u, design } = *geometry;
        let same = |Last { key, .. }: &Last| (key.0, key.1, key.2) == (v, k, g) && key.3 == design;
        if self.last.as_ref().is_some_and(same) {
            design::group_and_unit(k, g, u, self.plant)?;
        } else {
            if self.plant.has(Fault::SixBeforeFive) {
                design::group_and_unit(k, g, u, self.plant)?;
            }
            let counts = design::check(v, k, design, self.plant)?;
            design::group_and_unit(k, g, u, self.plant)?;
            let layout = Layout::filled(v, k, g, counts, design, self.plant);
            self.last = Some(Last { key: (v, k, g, design.to_vec()), counts, layout, sets: None });
        }
        Ok(&self.last.as_ref().expect("a layout was just accepted").layout)
    }

    /// Where the tuples of the geometry that was accepted last lie, and the sets of one tuple.
    fn homes_of_last(&self) -> (Homes<'_>, Vec<InTuple>) {
        let Last { key: (v, k, g, design), counts, .. } = self.last.as_ref().expect("a geometry was accepted");
        let homes = Homes::found(*v, *k, *g, *counts, design, self.plant);
        (homes, sets::of_one_tuple(*k, *g, self.plant))
    }
}
