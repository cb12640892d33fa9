//! What the sets alone say of a write: each keeps the XOR that it had. So an array that was consistent is consistent
//! again, and in another the same sets are bad. A rebuild makes a consistent array consistent again.

use super::call::{Kind, Reply};
use super::pair::{Shelf, Step};
use crate::given::Given;
use compare::model::{Audit, Model};

const CONSISTENT: Audit = Audit { bad: 0, lowest: 0 };

/// What the independent program's walk through the sets found in the array last, if the harness did not change it since;
/// and how many writes and rebuilds were watched and audits accepted, each on consistent and on other arrays.
#[derive(Default)]
pub struct Watch {
    found: Option<Audit>,
    writes: [u64; 2],
    rebuilds: [u64; 2],
    audits: [u64; 2],
}

impl Watch {
    /// A new array; with right parities it is consistent.
    pub fn start(&mut self, settled: bool) {
        self.found = settled.then_some(CONSISTENT);
    }

    /// Looks at the array after a step. A spoiled design may be another design, with rows in another order, and a spoiled
    /// length may fit a spoiled u, by which a call is accepted as well: then nothing follows for the sets of the given one.
    pub fn after(
        &mut self,
        step: &Step,
        answer: &Reply,
        model: &mut Model,
        now: &Shelf,
        given: &Given,
    ) -> Result<(), String> {
        let accepted = answer.refusal == 0;
        let same = step.call.given == *given && step.call.array == now.array.list().len();
        let rebuilt = accepted && step.call.kind == Kind::Rebuild;
        if !step.damage.is_empty() && !step.repair && !rebuilt {
            self.found = None;
        }
        let before = match step.call.kind {
            Kind::Format if accepted => same.then_some(CONSISTENT),
            Kind::Write if accepted => self.found.filter(|_| same),
            Kind::Rebuild if accepted => self.found.filter(|found| same && *found == CONSISTENT),
            Kind::Audit if accepted => {
                self.audits[usize::from(answer.counted[0] > 0)] += 1;
                return Ok(());
            }
            _ => return Ok(()),
        };
        let walked = model.audit(&given.geometry(&given.list), now.array.list());
        let found = walked.map_err(|refusal| format!("the array can't be audited: {refusal:?}"))?;
        if let Some(before) = before.filter(|before| *before != found) {
            return Err(format!("the sets had {before:?} and have {found:?}"));
        }
        self.found = Some(found);
        if let (Kind::Write, Some(before)) = (step.call.kind, before) {
            self.writes[usize::from(before != CONSISTENT)] += 1;
        }
        self.rebuilds[usize::from(before.is_none())] += u64::from(rebuilt);
        Ok(())
    }

    pub fn print(&self) {
        let Watch { writes, rebuilds, audits, .. } = self;
        println!(
            "{} writes on consistent arrays left them so, {} on others left as many sets bad",
            writes[0], writes[1]
        );
        println!("{} rebuilds of consistent arrays left them so, {} were of others", rebuilds[0], rebuilds[1]);
        println!("{} audits found all sets zero, {} found bad ones", audits[0], audits[1]);
    }
}
