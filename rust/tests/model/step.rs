//! A call, made through the safe functions and by the independent program.

use crate::lent::Twice;
use compare::model::{self, Model};
use himzolven::{Array, Design, Disk, Geometry, Refusal, Unit, UserUnit};

/// A call with the geometry's g and u and the lengths that the array and the marks are lent with.
#[derive(Clone, Debug)]
pub struct Step {
    pub g: u32,
    pub u: u32,
    pub array: usize,
    pub marks: usize,
    pub call: Call,
}

#[derive(Clone, Debug)]
pub enum Call {
    Sizes,
    Map { user: u32 },
    Role { disk: u32, unit: u32 },
    Plan { disk: u32, length: usize },
    Format,
    Read { user: u32, offset: u64, length: usize },
    Write { user: u32, offset: u64, bytes: Vec<u8> },
    Audit,
    Rebuild,
}

/// Everything that calls are lent: the array, the marks, the bytes of a read and the list of a plan.
pub struct Shelf {
    pub array: Twice<u8>,
    pub marks: Twice<u8>,
    pub bytes: Twice<u8>,
    pub list: Twice<u32>,
}

impl Shelf {
    /// The lists, by name, that differ between the two.
    pub fn unlike(&self) -> Vec<&'static str> {
        let Shelf { array, marks, bytes, list } = self;
        let alike = [array.alike(), marks.alike(), bytes.alike(), list.alike()];
        ["array", "marks", "bytes", "list"]
            .into_iter()
            .zip(alike)
            .filter(|(_, alike)| !alike)
            .map(|(name, _)| name)
            .collect()
    }
}

/// The numbers of an accepted answer, or a refusal's number and place.
pub type Reply = Result<Vec<u64>, (u32, u32)>;

/// A refusal's number and place; a pair must be what its place says.
pub fn told(refusal: Refusal, v: u32) -> (u32, u32) {
    if let Refusal::BadPair { a, b, place } = refusal {
        assert!(a < b && b.0 < v && a.0 * v + b.0 == place, "{refusal:?}");
    }
    (refusal.number(), refusal.place())
}

impl Step {
    /// Through the safe functions.
    pub fn ours(&self, design: &Design, shelf: &mut Shelf) -> Reply {
        let geometry = Geometry { design, g: self.g, u: self.u };
        let (bytes, marks) = (shelf.array.ours.words(self.array), shelf.marks.ours.words(self.marks));
        let mut array = Array { geometry, bytes, marks };
        let answer = match &self.call {
            Call::Sizes => geometry.sizes().map(our_sizes),
            Call::Map { user } => geometry.map(UserUnit(*user)).map(our_places),
            Call::Role { disk, unit } => geometry.role(Disk(*disk), Unit(*unit)).map(our_role),
            Call::Plan { disk, length } => geometry.plan(Disk(*disk), shelf.list.ours.words(*length)).map(our_plan),
            Call::Format => array.format().map(|()| vec![]),
            Call::Read { user, offset, length } => {
                array.read(UserUnit(*user), *offset, shelf.bytes.ours.words(*length)).map(|()| vec![])
            }
            Call::Write { user, offset, bytes } => array.write(UserUnit(*user), *offset, bytes).map(|()| vec![]),
            Call::Audit => array.audit().map(our_audit),
            Call::Rebuild => array.rebuild().map(|count| vec![count.into()]),
        };
        answer.map_err(|refusal| told(refusal, design.v()))
    }

    /// By the independent program.
    pub fn theirs(&self, design: &Design, shelf: &mut Shelf, model: &mut Model) -> Reply {
        let at = &model::Geometry { v: design.v(), k: design.k(), g: self.g, u: self.u, design: design.list() };
        let (array, marks) = (shelf.array.theirs.words(self.array), shelf.marks.theirs.words(self.marks));
        let answer = match &self.call {
            Call::Sizes => model.sizes(at).and_then(|sizes| their_sizes(sizes, at, model)),
            Call::Map { user } => model.map(at, *user).map(their_places),
            Call::Role { disk, unit } => model.role(at, *disk, *unit).map(their_role),
            Call::Plan { disk, length } => {
                let list = shelf.list.theirs.words(*length);
                model
                    .plan(at, *disk, list)
                    .map(|count| list[..3 * count as usize].iter().map(|n| u64::from(*n)).collect())
            }
            Call::Format => model.format(at, array, marks).map(|()| vec![]),
            Call::Read { user, offset, length } => {
                model.read(at, array, marks, *user, *offset, shelf.bytes.theirs.words(*length)).map(|()| vec![])
            }
            Call::Write { user, offset, bytes } => {
                model.write(at, array, marks, *user, *offset, bytes).map(|()| vec![])
            }
            Call::Audit => {
                model.audit(at, array).map(|audit| vec![audit.bad.into(), audit.lowest.into(), (audit.bad > 0).into()])
            }
            Call::Rebuild => model.rebuild(at, array, marks).map(|count| vec![count.into()]),
        };
        answer.map_err(|refusal| (refusal.number, refusal.place))
    }
}

fn wide<const N: usize>(numbers: [u32; N]) -> Vec<u64> {
    numbers.map(u64::from).to_vec()
}

fn our_sizes(sizes: himzolven::Sizes) -> Vec<u64> {
    let himzolven::Sizes { parts, tuples, disks, units, user_units, sets, bytes, marks, plan } = sizes;
    let lengths = [bytes, marks, plan].map(|length| length as u64);
    [wide([parts, tuples, disks, units, user_units, sets]), lengths.to_vec()].concat()
}

/// The independent program's marks are as many as its disks; its plan's numbers are counted in the plan of disk 0.
fn their_sizes(sizes: model::Sizes, at: &model::Geometry, model: &mut Model) -> Result<Vec<u64>, model::Refusal> {
    let model::Sizes { parts, tuples, disks, units, user_units, sets, bytes } = sizes;
    let plan = 3 * model.plan(at, 0, &mut [0; 10_000])?;
    Ok([wide([parts, tuples, disks, units, user_units, sets]), vec![bytes, disks.into(), plan.into()]].concat())
}

fn our_places(places: himzolven::Places) -> Vec<u64> {
    let himzolven::Places { data, outer, inner, both } = places;
    [data, outer, inner, both].iter().flat_map(|place| wide([place.disk.0, place.unit.0])).collect()
}

fn their_places(map: model::Map) -> Vec<u64> {
    let model::Map { data, outer, inner, both } = map;
    [data, outer, inner, both].iter().flat_map(|place| wide([place.disk, place.unit])).collect()
}

fn our_role(role: himzolven::Role) -> Vec<u64> {
    wide(match role {
        himzolven::Role::User(user) => [0, user.0, 0, 0],
        himzolven::Role::Outer { tuple, row, column } => [1, tuple.0, row, column],
        himzolven::Role::Inner { tuple, position, diagonal } => [2, tuple.0, position, diagonal],
    })
}

fn their_role(role: model::Role) -> Vec<u64> {
    wide(match role {
        model::Role::User(n) => [0, n, 0, 0],
        model::Role::Outer { t, i, c } => [1, t, i, c],
        model::Role::Inner { t, l, j } => [2, t, l, j],
    })
}

fn our_plan(plan: himzolven::Plan) -> Vec<u64> {
    plan.flat_map(|step| wide([step.unit.0, step.source.disk.0, step.source.unit.0])).collect()
}

fn our_audit(audit: himzolven::Audit) -> Vec<u64> {
    vec![audit.bad.into(), audit.lowest.map_or(0, |set| set.0.into()), audit.lowest.is_some().into()]
}
