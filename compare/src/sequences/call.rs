//! One call on an array, asked of the proved library and of the independent program.

use super::pair::Shelf;
use crate::given::Given;
use crate::lent::Lent;
use crate::library::array::{Asking, AuditAnswer};
use crate::library::{Answer, CountAnswer, Flat};
use compare::model::Model;
use std::fmt;

/// The calls on the array.
#[derive(Clone, Copy, Debug, PartialEq, Eq)]
pub enum Kind {
    Format,
    Read,
    Write,
    Audit,
    Rebuild,
}

impl Kind {
    pub const ALL: [Kind; 5] = [Kind::Format, Kind::Read, Kind::Write, Kind::Audit, Kind::Rebuild];

    pub fn name(self) -> &'static str {
        ["format", "read", "write", "audit", "rebuild"][self as usize]
    }

    /// The refusal numbers of document 01 that apply to the call.
    pub fn refusals(self) -> &'static [u32] {
        match self {
            Kind::Format => &[2, 3, 4, 5, 6, 7, 8],
            Kind::Read | Kind::Write => &[2, 3, 4, 5, 6, 7, 8, 10, 11, 12],
            Kind::Audit => &[2, 3, 4, 5, 6, 7],
            Kind::Rebuild => &[2, 3, 4, 5, 6, 7, 8, 13],
        }
    }
}

/// What a call answered: refusal and place, and what it counted: of audit the bad sets and the lowest, of rebuild the
/// restored units.
#[derive(Clone, Copy, Debug, PartialEq, Eq)]
pub struct Reply {
    pub refusal: u32,
    pub place: u32,
    pub counted: [u32; 2],
}

impl From<Answer> for Reply {
    fn from(Answer { refusal, place }: Answer) -> Self {
        Reply { refusal, place, counted: [0, 0] }
    }
}

impl From<AuditAnswer> for Reply {
    fn from(AuditAnswer { refusal, place, bad, lowest }: AuditAnswer) -> Self {
        Reply { refusal, place, counted: [bad, lowest] }
    }
}

impl From<CountAnswer> for Reply {
    fn from(CountAnswer { refusal, place, count }: CountAnswer) -> Self {
        Reply { refusal, place, counted: [count, 0] }
    }
}

/// A call on a shelf; it passes those of the numbers that its kind takes.
#[derive(Clone, Debug)]
pub struct Call {
    pub kind: Kind,
    pub given: Given,
    /// How many bytes of the array and of the marks are lent; another number than theirs is a wrong length.
    pub array: usize,
    pub marks: usize,
    pub user_unit: u32,
    pub offset: u64,
    /// Of write the new bytes, of read what its buffer holds before; the length is the range's.
    pub bytes: Vec<u8>,
    /// Whether a list of length 0 is passed as NULL.
    pub null: bool,
}

impl Call {
    /// Asks the proved library; `design` and `bytes` are lent as well.
    pub fn ask_library(&self, shelf: &mut Shelf, design: &mut Lent<u16>, bytes: &mut Lent<u8>) -> Reply {
        let asking = Asking { at: self.given.geometry(design.lend(self.given.list.len())), null: self.null };
        let (array, marks) = (shelf.array.lend(self.array), shelf.marks.lend(self.marks));
        let bytes = bytes.lend(self.bytes.len());
        match self.kind {
            Kind::Format => asking.format(array, marks).into(),
            Kind::Read => asking.read(array, marks, self.user_unit, self.offset, bytes).into(),
            Kind::Write => asking.write(array, marks, self.user_unit, self.offset, bytes).into(),
            Kind::Audit => asking.audit(array).into(),
            Kind::Rebuild => asking.rebuild(array, marks).into(),
        }
    }

    /// Asks the independent program.
    pub fn ask_model(&self, model: &mut Model, shelf: &mut Shelf, bytes: &mut Lent<u8>) -> Reply {
        let at = &self.given.geometry(&self.given.list);
        let (array, marks) = (shelf.array.lend(self.array), shelf.marks.lend(self.marks));
        let bytes = bytes.lend(self.bytes.len());
        let result = match self.kind {
            Kind::Format => model.format(at, array, marks),
            Kind::Read => model.read(at, array, marks, self.user_unit, self.offset, bytes),
            Kind::Write => model.write(at, array, marks, self.user_unit, self.offset, bytes),
            Kind::Audit => return AuditAnswer::flat(model.audit(at, array)).into(),
            Kind::Rebuild => return CountAnswer::flat(model.rebuild(at, array, marks)).into(),
        };
        Answer::flat(result).into()
    }
}

impl fmt::Display for Call {
    /// The arguments that are passed; with `#` all bytes and the whole list, else the first ones.
    fn fmt(&self, f: &mut fmt::Formatter) -> fmt::Result {
        let Given { v, k, g, u, .. } = self.given;
        write!(f, "{} v={v} k={k} g={g} u={u} array={}", self.kind.name(), self.array)?;
        if self.kind != Kind::Audit {
            write!(f, " marks={}", self.marks)?;
        }
        if matches!(self.kind, Kind::Read | Kind::Write) {
            let shown = if f.alternate() { self.bytes.len() } else { self.bytes.len().min(8) };
            let bytes: String = self.bytes[..shown].iter().map(|byte| format!("{byte:02x}")).collect();
            write!(f, " user_unit={} offset={} bytes={}:{bytes}", self.user_unit, self.offset, self.bytes.len())?;
        }
        f.write_str(if self.null { " null " } else { " " })?;
        self.given.fmt(f)
    }
}
