//! An array with its marks, twice: one is lent to the proved library, one to the independent program.

use super::call::{Call, Kind, Reply};
use crate::lent::Lent;
use compare::model::Model;

/// What a sequence of calls works on.
pub struct Shelf {
    pub array: Lent<u8>,
    pub marks: Lent<u8>,
}

/// Bytes of the array that the harness changes: index and what is XORed in.
pub type Damage = Vec<(usize, u8)>;

/// What the harness does around a call: it sets the marks and damages the array before it, and may repair it after; of
/// rebuild, only where it was refused: else the damaged disks have been restored.
pub struct Step {
    pub marks: Vec<u8>,
    pub damage: Damage,
    pub repair: bool,
    pub call: Call,
}

impl Shelf {
    fn damage(&mut self, damage: &Damage) {
        let array = self.array.lend(self.array.list().len());
        damage.iter().for_each(|(at, byte)| array[*at] ^= byte);
    }
}

/// The two shelves. After every step they are equal, or the step failed.
pub struct Pair {
    library: Shelf,
    model: Shelf,
    shift: usize,
}

impl Pair {
    pub fn of(library: Shelf, model: Shelf, shift: usize) -> Pair {
        Pair { library, model, shift }
    }

    /// The array and marks as they are now.
    pub fn now(&self) -> &Shelf {
        &self.model
    }

    /// Takes a step on both shelves and compares the answers and every lent byte, redzones and all.
    pub fn step(&mut self, step: &Step, model: &mut Model) -> Result<Reply, String> {
        for shelf in [&mut self.library, &mut self.model] {
            shelf.marks.lend(step.marks.len()).copy_from_slice(&step.marks);
            shelf.damage(&step.damage);
        }
        let answer = self.ask(&step.call, model)?;
        if step.repair && !(step.call.kind == Kind::Rebuild && answer.refusal == 0) {
            self.library.damage(&step.damage);
            self.model.damage(&step.damage);
        }
        Ok(answer)
    }

    fn ask(&mut self, call: &Call, model: &mut Model) -> Result<Reply, String> {
        let lent = || Lent::of(&call.bytes, self.shift);
        let (mut ours, mut bytes, mut design) = (lent(), lent(), Lent::of(&call.given.list, 0));
        let expected = call.ask_model(model, &mut self.model, &mut ours);
        let answer = call.ask_library(&mut self.library, &mut design, &mut bytes);
        let named = |name: &'static str| move |fault: String| format!("{name} {fault}\n  answered: {answer:?}");
        design.difference(&Lent::of(&call.given.list, 0)).map_err(named("the design"))?;
        bytes.difference(&ours).map_err(named("the buffer"))?;
        self.library.marks.difference(&self.model.marks).map_err(named("the marks"))?;
        self.library.array.difference(&self.model.array).map_err(named("the array"))?;
        if answer == expected {
            Ok(answer)
        } else {
            Err(format!("the answers differ\n  library: {answer:?}\n  independent program: {expected:?}"))
        }
    }
}
