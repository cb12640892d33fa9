//! The twelve numbered examples of document 01.

use crate::designs::F;
use himzolven::{Array, Design, Disk, Geometry, Group, Refusal, Tuple, UserUnit};

/// The four places of a user unit as document 01 prints them.
fn places(geometry: Geometry, user: u32) -> Result<String, Refusal> {
    let four = geometry.map(UserUnit(user))?;
    Ok([four.data, four.outer, four.inner, four.both].map(|place| place.to_string()).join(", "))
}

/// What a rebuild of a formatted array answers, with these disks lost.
fn rebuilt(geometry: Geometry, lost: &[u32]) -> Result<u32, Refusal> {
    let sizes = geometry.sizes()?;
    let (mut bytes, mut marks) = (vec![0; sizes.bytes], vec![0; sizes.marks]);
    let mut array = Array { geometry, bytes: &mut bytes, marks: &mut marks };
    array.format()?;
    lost.iter().try_for_each(|disk| array.mark(Disk(*disk)))?;
    array.rebuild()
}

#[test]
fn the_twelve_examples_of_document_01() -> Result<(), Refusal> {
    let design = Design::new(7, 3, &F)?;
    let geometry = Geometry { design: &design, g: 3, u: 16 };
    assert_eq!(geometry.map(UserUnit(0))?.data.to_string(), "0/0");
    assert_eq!(places(geometry, 4)?, "1/1, 18/1, 2/2, 19/2");
    assert_eq!(places(geometry, 11)?, "6/1, 19/1, 7/2, 20/2");
    assert_eq!(places(geometry, 83)?, "15/7, 19/7, 16/8, 20/8");
    assert_eq!(places(geometry, 84), Err(Refusal::UserTooHigh));
    assert_eq!(rebuilt(geometry, &[]), Ok(0));
    assert_eq!(rebuilt(geometry, &[0, 1, 2, 3]), Ok(36));
    assert_eq!(rebuilt(geometry, &[0, 1, 3, 4]), Err(Refusal::Incomplete { tuple: Tuple(1) }));
    let wrong = [&F[..18], &[1, 4, 6]].concat();
    assert_eq!(Design::new(7, 3, wrong), Err(Refusal::BadPair { a: Group(1), b: Group(4), place: 11 }));
    assert_eq!(Design::new(51, 8, vec![]), Err(Refusal::NotWhole));
    assert_eq!(Geometry { g: 9, ..geometry }.sizes(), Err(Refusal::BadSize));
    let smallest = Design::new(2, 2, &[0, 1])?;
    let sizes = Geometry { design: &smallest, g: 2, u: 1 }.sizes()?;
    assert_eq!((sizes.disks, sizes.units, sizes.user_units), (4, 2, 2));
    Ok(())
}
