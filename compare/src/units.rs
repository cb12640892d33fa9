//! `units`: every unit and every user unit of many arrays, compared with the independent program and with one another.

use crate::library::{self, Flat, MapAnswer, RoleAnswer};
use crate::pool::{Design, HELD};
use compare::model::{Geometry, Model, Plant};

/// The arrays: each held design and F with several g, complete graphs, single rows.
fn arrays() -> Vec<(String, Design, Vec<u32>)> {
    let two_from = |k: u32| [2, 3, 5, 7, 11, 13].into_iter().filter(|g| *g >= k).take(2).collect();
    let mut arrays = vec![("F".to_string(), Design::f(), vec![3, 5, 7, 11, 13])];
    arrays.extend(HELD.map(|(v, k)| (format!("held {v}"), Design::held(v, k), two_from(k))));
    arrays.extend([2, 3, 4, 5, 8, 12].map(|v| (format!("complete {v}"), Design::complete(v), vec![2, 3, 5, 7])));
    arrays.extend([3, 5, 10].map(|k| (format!("single row {k}"), Design::single(k), two_from(k.into()))));
    arrays
}

/// Goes through all arrays and prints how much was compared.
pub fn run() -> Result<(), String> {
    let (mut units, mut users) = (0, 0);
    for (name, Design { v, k, numbers }, groups) in arrays() {
        for g in groups {
            let geometry = Geometry { v, k, g, u: 1, design: &numbers };
            let counts = array(&geometry).map_err(|fault| format!("{name}, g = {g}: {fault}"))?;
            println!("{name}, g = {g}: {} units, {} user units", counts.0, counts.1);
            (units, users) = (units + counts.0, users + counts.1);
        }
    }
    println!("{units} units and {users} user units, no difference");
    Ok(())
}

/// Compares one array: all roles, all maps, and the roles of the four places of each user unit.
fn array(geometry: &Geometry) -> Result<(usize, usize), String> {
    let mut model = Model::new(Plant::NONE);
    let sizes = model.sizes(geometry).map_err(|refusal| format!("{refusal:?}"))?;
    let mut roles = Vec::new();
    for disk in 0..sizes.disks {
        for unit in 0..sizes.units {
            let role = library::role(geometry, disk, unit);
            same(role, RoleAnswer::flat(model.role(geometry, disk, unit)), || format!("role {disk}/{unit}"))?;
            roles.push(role);
        }
    }
    let role_at = |disk: u32, unit: u32| roles[(disk * sizes.units + unit) as usize];
    for n in 0..sizes.user_units {
        let map = library::map(geometry, n);
        same(map, MapAnswer::flat(model.map(geometry, n)), || format!("map {n}"))?;
        agree(n, geometry.k, &map, role_at)?;
    }
    Ok((roles.len(), sizes.user_units as usize))
}

fn same<T: Flat>(library: T, model: T, asked: impl Fn() -> String) -> Result<(), String> {
    if library == model {
        return Ok(());
    }
    Err(format!("{}: library {library:?}, independent program {model:?}", asked()))
}

/// The way back from the four places of user unit n: n itself, an outer parity, an inner parity of the same tuple, and
/// the inner parity of that tuple's last position.
fn agree(n: u32, k: u32, map: &MapAnswer, role_at: impl Fn(u32, u32) -> RoleAnswer) -> Result<(), String> {
    let data = role_at(map.data_disk, map.data_unit);
    let outer = role_at(map.outer_disk, map.outer_unit);
    let inner = role_at(map.inner_disk, map.inner_unit);
    let both = role_at(map.both_disk, map.both_unit);
    let tuple = outer.a;
    let fits = (data.kind, data.a) == (0, n)
        && outer.kind == 1
        && (inner.kind, inner.a) == (2, tuple)
        && inner.b + 1 < k
        && (both.kind, both.a, both.b) == (2, tuple, k - 1);
    if fits {
        Ok(())
    } else {
        Err(format!("user unit {n}: {map:?} and {data:?} {outer:?} {inner:?} {both:?} disagree"))
    }
}
