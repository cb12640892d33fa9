//! `compare`: the proved library and the independent program asked the same, with the count of what was answered.

use crate::call::{Call, Kind, Reply};
use crate::generator::Generator;
use crate::pool;
use crate::tally::Tally;
use compare::model::{Model, Plant};

/// Asks both; the error shows the call with its whole list and both replies.
pub fn both(call: &Call, model: &mut Model) -> Result<Reply, String> {
    let expected = call.ask_model(model);
    let reply = call.ask_library().map_err(|fault| format!("{fault}\n  asked: {call:#}"))?;
    if reply == expected {
        Ok(reply)
    } else {
        Err(format!("the answers differ\n  asked: {call:#}\n  library: {reply:?}\n  independent program: {expected:?}"))
    }
}

/// The run: `calls` calls from the seed.
pub fn run(seed: u64, calls: usize) -> Result<(), String> {
    println!("seed {seed}");
    let mut model = Model::new(Plant::NONE);
    let mut tally = Tally::of(Kind::ALL.map(|kind| (kind.name(), kind.refusals())));
    for (number, call) in Generator::new(seed, &pool::all()).take(calls).enumerate() {
        let reply = both(&call, &mut model).map_err(|fault| format!("call {number}: {fault}"))?;
        tally.add(call.kind as usize, reply.answer().refusal);
    }
    tally.print();
    println!("{} calls, {} accepted, no difference", tally.calls(), tally.accepted());
    tally.demands()
}
