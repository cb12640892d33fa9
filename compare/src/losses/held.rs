//! An array and its losses.

use crate::lent::Lent;
use crate::loss;
use crate::sequences::array::Array;
use crate::sequences::call::{Call, Kind, Reply};
use crate::sequences::pair::{Pair, Shelf, Step};
use compare::model::Model;
use compare::random::Random;

/// An array with what it holds: right parities or not.
pub struct Held {
    pub array: Array,
    bytes: Vec<u8>,
    pub settled: bool,
}

impl Held {
    pub fn of(mut array: Array, settled: bool, random: &mut Random) -> Held {
        let mut bytes = random.bytes(array.bytes());
        if settled {
            array.settle(&mut bytes);
        }
        Held { array, bytes, settled }
    }

    /// Loses the disks, whose bytes are then any, and rebuilds. The error shows all that was lent.
    pub fn lose(&self, lost: &[usize], random: &mut Random, model: &mut Model) -> Result<Reply, String> {
        let (sizes, mut bytes) = (self.array.sizes, self.bytes.clone());
        let disk = bytes.len() / sizes.disks as usize;
        lost.iter().for_each(|lost| bytes[lost * disk..][..disk].copy_from_slice(&random.bytes(disk)));
        let (marks, shift) = (loss::marks(sizes.disks, lost), random.below(32));
        let shelf = || Shelf { array: Lent::of(&bytes, shift), marks: Lent::of(&marks, shift / 2) };
        let (given, array) = (self.array.given.clone(), bytes.len());
        let (kind, room) = (Kind::Rebuild, marks.len());
        let call = Call { kind, given, array, marks: room, user_unit: 0, offset: 0, bytes: Vec::new(), null: false };
        let mut pair = Pair::of(shelf(), shelf(), 0);
        let step = Step { marks: marks.clone(), damage: Vec::new(), repair: false, call };
        let asked = || format!("\n  lost: {lost:?}\n  asked: {:#}\n  array: {}", step.call, hex(&bytes));
        let reply = pair.step(&step, model).map_err(|fault| fault + &asked())?;
        let all = lost.len() as u32 * sizes.units;
        if reply.refusal == 0 && reply.counted != [all, 0] {
            return Err(format!("{} units of lost disks, {reply:?}{}", all, asked()));
        }
        if reply.refusal == 0 && self.settled && pair.now().array.list() != self.bytes {
            return Err(format!("an array with right parities did not come back{}", asked()));
        }
        Ok(reply)
    }
}

/// Bytes in hexadecimal, of a long list the first.
fn hex(bytes: &[u8]) -> String {
    let shown: String = bytes.iter().take(4096).map(|byte| format!("{byte:02x}")).collect();
    shown + if bytes.len() > 4096 { " …" } else { "" }
}
