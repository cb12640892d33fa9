//! The two parities: the table of what every unit holds, filled from the regions.

use super::answer::{Map, Place, Refusal, Role, Sizes};
use super::design::Counts;
use super::fault::{Fault, Plant};
use super::homes::Homes;
use super::region::{parity_position, user_cells, Region};

/// The tables of one geometry.
pub(super) struct Layout {
    counts: Counts,
    /// What each unit holds, by disk and unit.
    roles: Vec<Vec<Option<Role>>>,
    /// The four places of each user unit.
    users: Vec<Map>,
    sets: u32,
}

impl Layout {
    /// Fills the tables of a geometry whose design has been tested.
    pub fn filled(v: u32, k: u32, g: u32, counts: Counts, design: &[u16], plant: Plant) -> Layout {
        let homes = Homes::found(v, k, g, counts, design, plant);
        let regions: Vec<Region> = (0..k as usize).map(|l| Region::at_position(l, g as usize, plant)).collect();
        let roles = vec![vec![None; (counts.parts * g) as usize]; (v * g) as usize];
        let mut layout = Layout { counts, roles, users: Vec::new(), sets: 0 };
        layout.fill_parities(&homes, &regions, plant);
        layout.fill_users(&homes, &regions, plant);
        layout
    }

    /// "The unit at position k-1 is its parity" (outer); "Row g-1 holds its parity" (inner). Each is one set.
    fn fill_parities(&mut self, homes: &Homes, regions: &[Region], plant: Plant) {
        let parity = parity_position(regions, plant);
        for tuple in 0..homes.rows.len() {
            let t = tuple as u32;
            for (row, labels) in regions[parity].labels.iter().enumerate() {
                for (column, label) in labels.iter().enumerate() {
                    let c = plant.or(label.1, Fault::ColumnForLabel, column as u32);
                    self.put(homes.place(tuple, parity, (row, column)), Role::Outer { t, i: label.0, c });
                    self.sets += 1;
                }
            }
            for (position, region) in regions.iter().enumerate() {
                for (diagonal, (_, end)) in region.diagonals.iter().enumerate() {
                    let (l, j) = (position as u32, diagonal as u32);
                    self.put(homes.place(tuple, position, *end), Role::Inner { t, l, j });
                    self.sets += plant.or(1, Fault::InnerSetsForgotten, 0);
                }
            }
        }
    }

    /// "User unit n is label (i,c) at position l of tuple t, with n = ((t·(k-1) + l)·(g-1) + i)·g + c and l below k-1":
    /// numbered by going through tuples, positions, rows and columns, the last running fastest. The cells that matter
    /// are the same for all tuples and are searched once.
    fn fill_users(&mut self, homes: &Homes, regions: &[Region], plant: Plant) {
        let (cells, parity) = (user_cells(regions, plant), parity_position(regions, plant));
        for tuple in 0..homes.rows.len() {
            for (position, four) in &cells {
                let [data, outer, inner, both] = *four;
                let map = Map {
                    data: homes.place(tuple, *position, data),
                    outer: homes.place(tuple, parity, outer),
                    inner: homes.place(tuple, *position, inner),
                    both: homes.place(tuple, parity, both),
                };
                let n = self.users.len() as u32;
                self.put(map.data, Role::User(plant.or(n, Fault::UserFromOne, n + 1)));
                self.users.push(map);
            }
        }
    }

    fn put(&mut self, place: Place, role: Role) {
        self.roles[place.disk as usize][place.unit as usize] = Some(role);
    }

    /// The sizes, counted in the tables. "The buffer holds disk 0 whole, then disk 1, and so on: v·g·r·g·u bytes".
    pub fn sizes(&self, u: u32, plant: Plant) -> Sizes {
        let units = self.roles[0].len() as u32;
        let bytes: u64 = self.roles.iter().map(|disk| disk.len() as u64 * u64::from(u)).sum();
        Sizes {
            parts: self.counts.parts,
            tuples: self.counts.tuples,
            disks: self.roles.len() as u32,
            units,
            user_units: self.users.len() as u32,
            sets: self.sets,
            bytes: plant.or(bytes, Fault::BytesWrap, u64::from(bytes as u32)),
        }
    }

    /// 10: "user unit number too high".
    pub fn map(&self, user_unit: u32, plant: Plant) -> Result<Map, Refusal> {
        let n = plant.or(user_unit, Fault::UserBound, lowered(user_unit, self.users.len()));
        let map = *self.users.get(n as usize).ok_or(Refusal::placeless(10))?;
        let map = plant.or(map, Fault::OnePlaceAlways, self.users[0]);
        Ok(plant.or(map, Fault::InnerOfOuter, Map { both: map.inner, ..map }))
    }

    /// 9: "disk or unit number too high".
    pub fn role(&self, disk: u32, unit: u32, plant: Plant) -> Result<Role, Refusal> {
        let disk = plant.or(disk, Fault::DiskBound, lowered(disk, self.roles.len()));
        let unit = plant.or(unit, Fault::UnitBound, lowered(unit, self.roles[0].len()));
        let units = self.roles.get(disk as usize).ok_or(Refusal::placeless(9))?;
        let role = units.get(unit as usize).ok_or(Refusal::placeless(9))?;
        Ok(role.expect("every unit has a role"))
    }
}

/// A number just at its bound, taken for the one below.
fn lowered(number: u32, bound: usize) -> u32 {
    number - u32::from(number as usize == bound)
}
