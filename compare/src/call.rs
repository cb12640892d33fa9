//! One call with its arguments, asked of the proved library and of the independent program.

use crate::given::Given;
use crate::lent::{Lent, Word};
use crate::library::{self, Answer, CountAnswer, Flat, MapAnswer, RoleAnswer, SizesAnswer};
use compare::model::Model;
use std::fmt;

/// The calls of the interface.
#[derive(Clone, Copy, Debug, PartialEq, Eq)]
pub enum Kind {
    Fill,
    Check,
    Sizes,
    Map,
    Role,
    Plan,
}

impl Kind {
    pub const ALL: [Kind; 6] = [Kind::Fill, Kind::Check, Kind::Sizes, Kind::Map, Kind::Role, Kind::Plan];

    pub fn name(self) -> &'static str {
        ["fill", "check", "sizes", "map", "role", "plan"][self as usize]
    }

    /// The refusal numbers of document 01 that apply to the call.
    pub fn refusals(self) -> &'static [u32] {
        match self {
            Kind::Fill => &[1, 3],
            Kind::Check => &[2, 3, 4, 5],
            Kind::Sizes => &[2, 3, 4, 5, 6],
            Kind::Map => &[2, 3, 4, 5, 6, 10],
            Kind::Role => &[2, 3, 4, 5, 6, 9],
            Kind::Plan => &[2, 3, 4, 5, 6, 9, 14],
        }
    }
}

/// A call; it passes those of the numbers that its kind takes.
#[derive(Clone, Debug)]
pub struct Call {
    pub kind: Kind,
    pub given: Given,
    pub user_unit: u32,
    pub disk: u32,
    pub unit: u32,
    /// The length of the list that the plan is lent.
    pub room: usize,
}

/// What came back; of fill and plan also the list.
#[derive(Clone, Debug, PartialEq)]
pub enum Reply {
    Fill(Answer, Vec<u16>),
    Check(Answer),
    Sizes(SizesAnswer),
    Map(MapAnswer),
    Role(RoleAnswer),
    Plan(CountAnswer, Vec<u32>),
}

impl Reply {
    /// Refusal and place, which every answer begins with.
    pub fn answer(&self) -> Answer {
        let (refusal, place) = match self {
            Reply::Fill(answer, _) | Reply::Check(answer) => (answer.refusal, answer.place),
            Reply::Sizes(answer) => (answer.refusal, answer.place),
            Reply::Map(answer) => (answer.refusal, answer.place),
            Reply::Role(answer) => (answer.refusal, answer.place),
            Reply::Plan(answer, _) => (answer.refusal, answer.place),
        };
        Answer { refusal, place }
    }
}

impl Call {
    /// What the plan's list holds before the call.
    fn stale(&self) -> Vec<u32> {
        (0..self.room).map(|at| !u32::guard(at)).collect()
    }

    /// Asks the proved library. The error says which lent word changed that had to stay.
    pub fn ask_library(&self) -> Result<Reply, String> {
        let Given { v, k, ref list, .. } = self.given;
        let (mut lent, mut plan) = (Lent::of(list, 0), Lent::of(&self.stale(), 0));
        let part = lent.lend(list.len());
        let reply = match self.kind {
            Kind::Fill => {
                let answer = library::fill(v, part);
                Reply::Fill(answer, lent.list().to_vec())
            }
            Kind::Check => Reply::Check(library::check(v, k, part)),
            Kind::Sizes => Reply::Sizes(library::sizes(&self.given.geometry(part))),
            Kind::Map => Reply::Map(library::map(&self.given.geometry(part), self.user_unit)),
            Kind::Role => Reply::Role(library::role(&self.given.geometry(part), self.disk, self.unit)),
            Kind::Plan => {
                let answer = library::plan(&self.given.geometry(part), self.disk, plan.lend(self.room));
                plan.difference(&Lent::of(plan.list(), 0)).map_err(|fault| format!("the plan's list {fault}"))?;
                Reply::Plan(answer, plan.list().to_vec())
            }
        };
        let after = if let Reply::Fill(_, filled) = &reply { filled } else { list };
        lent.difference(&Lent::of(after, 0)).map_err(|fault| format!("the lent list {fault}"))?;
        if let (Reply::Fill(answer, filled), true) = (&reply, list.is_empty()) {
            let null = library::fill_null(v);
            if null != *answer {
                return Err(format!("NULL with length 0 gives {null:?}, an empty list {answer:?}, {filled:?}"));
            }
        }
        Ok(reply)
    }

    /// Asks the independent program.
    pub fn ask_model(&self, model: &mut Model) -> Reply {
        let Given { v, k, ref list, .. } = self.given;
        let geometry = self.given.geometry(list);
        match self.kind {
            Kind::Fill => {
                let mut list = list.clone();
                let answer = Answer::flat(model.fill(v, &mut list));
                Reply::Fill(answer, list)
            }
            Kind::Check => Reply::Check(Answer::flat(model.check(v, k, list))),
            Kind::Sizes => Reply::Sizes(SizesAnswer::flat(model.sizes(&geometry))),
            Kind::Map => Reply::Map(MapAnswer::flat(model.map(&geometry, self.user_unit))),
            Kind::Role => Reply::Role(RoleAnswer::flat(model.role(&geometry, self.disk, self.unit))),
            Kind::Plan => {
                let mut list = self.stale();
                let answer = CountAnswer::flat(model.plan(&geometry, self.disk, &mut list));
                Reply::Plan(answer, list)
            }
        }
    }
}

impl fmt::Display for Call {
    /// The arguments that are passed; with `#` the whole list, else its first numbers.
    fn fmt(&self, f: &mut fmt::Formatter) -> fmt::Result {
        let Given { v, k, g, u, .. } = self.given;
        write!(f, "{} v={v}", self.kind.name())?;
        if self.kind != Kind::Fill {
            write!(f, " k={k}")?;
        }
        if matches!(self.kind, Kind::Sizes | Kind::Map | Kind::Role | Kind::Plan) {
            write!(f, " g={g} u={u}")?;
        }
        match self.kind {
            Kind::Map => write!(f, " user_unit={}", self.user_unit)?,
            Kind::Role => write!(f, " disk={} unit={}", self.disk, self.unit)?,
            Kind::Plan => write!(f, " disk={} room={}", self.disk, self.room)?,
            _ => {}
        }
        f.write_str(" ")?;
        self.given.fmt(f)
    }
}
