//! Compares the proved library, linked through its C interface, with the independent program in `model`.

mod call;
mod faults;
mod figure4;
mod fuzz;
mod generator;
mod given;
mod hostile;
mod lent;
mod library;
mod loss;
mod losses;
mod pool;
mod printed;
mod run;
mod sequences;
mod tally;
mod units;

use std::process::ExitCode;
use std::time::{Instant, SystemTime, UNIX_EPOCH};

const USAGE: &str = "usage: compare compare [--seed N] [--calls N]   random calls, valid and hostile, answers counted
       compare sequences [--seed N] [--from N] [--count N]
                                                 sequences of calls on arrays, every lent byte compared; a long run is
                                                 `compare sequences --count 100000`, one sequence alone
                                                 `compare sequences --seed N --from N --count 1`
       compare losses [--seed N] [--from N] [--count N]
                                                 disks lost and rebuilt: every loss of up to five disks of design F,
                                                 then random losses; one array alone
                                                 `compare losses --seed N --from N --count 1`
       compare fuzz [--seed N] [--count N]       raw strings of bytes, decoded to calls of all kinds; mutations of a corpus
       compare fuzz-faults [--seed N]            planted faults, each to be found by raw strings
       compare printed PRINTER [--seed N]        the plan printer, run on lines of every kind
       compare units                             every unit and user unit of many arrays
       compare figure4 FILE                      document 000's figure 4, from a data file
       compare faults [--seed N]                 planted faults, each to be found";

/// The number of calls of a run, unless it is told another.
const CALLS: u64 = 140_000;

/// The seed of a run that is told none.
fn clock() -> u64 {
    SystemTime::now().duration_since(UNIX_EPOCH).map_or(0, |time| time.as_nanos() as u64)
}

/// The numbers after the named options, or what stands beside the names; none if the words have another form.
fn options<const N: usize>(words: &[&str], named: [(&str, u64); N]) -> Option<[u64; N]> {
    let mut numbers = named.map(|(_, number)| number);
    for two in words.chunks(2) {
        let [name, number] = two else { return None };
        let at = named.iter().position(|(option, _)| option == name)?;
        numbers[at] = number.parse().ok()?;
    }
    Some(numbers)
}

/// Runs what the words ask for; none if they ask for nothing.
fn asked(words: &[&str]) -> Option<Result<(), String>> {
    let seed = ("--seed", clock());
    match words {
        ["compare", rest @ ..] => {
            options(rest, [seed, ("--calls", CALLS)]).map(|[seed, calls]| run::run(seed, calls as usize))
        }
        ["sequences", rest @ ..] => options(rest, [seed, ("--from", 0), ("--count", sequences::COUNT)])
            .map(|[seed, from, count]| sequences::run(seed, from, count)),
        ["losses", rest @ ..] => options(rest, [seed, ("--from", 0), ("--count", losses::COUNT)])
            .map(|[seed, from, count]| losses::run(seed, from, count)),
        ["fuzz-faults", rest @ ..] => options(rest, [seed]).map(|[seed]| fuzz::faults(seed)),
        ["fuzz", rest @ ..] => {
            options(rest, [seed, ("--count", fuzz::COUNT)]).map(|[seed, count]| fuzz::run(seed, count))
        }
        ["faults", rest @ ..] => options(rest, [seed]).map(|[seed]| faults::run(seed)),
        ["printed", printer, rest @ ..] => options(rest, [seed]).map(|[seed]| printed::run(printer, seed)),
        ["units"] => Some(units::run()),
        ["figure4", path] => Some(figure4::run(path)),
        _ => None,
    }
}

fn main() -> ExitCode {
    let words: Vec<String> = std::env::args().skip(1).collect();
    let words: Vec<&str> = words.iter().map(String::as_str).collect();
    let start = Instant::now();
    match asked(&words) {
        Some(Ok(())) => {
            eprintln!("{:.1} s", start.elapsed().as_secs_f64());
            ExitCode::SUCCESS
        }
        Some(Err(fault)) => {
            eprintln!("{fault}");
            ExitCode::FAILURE
        }
        None => {
            eprintln!("{USAGE}");
            ExitCode::from(2)
        }
    }
}
