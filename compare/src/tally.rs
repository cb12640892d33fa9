//! How often each call gave each answer, and what a run must show of it.

/// The least number of calls of a run.
const CALLS: u64 = 100_000;

/// The least number of times that each refusal of each call must occur in a run.
const LEAST: u64 = 500;

/// A call's name, the refusal numbers of document 01 that apply to it, and its answers by number; 0 is acceptance.
struct Line {
    name: &'static str,
    refusals: &'static [u32],
    counts: [u64; 15],
}

impl Line {
    fn calls(&self) -> u64 {
        self.counts.iter().sum()
    }
}

/// One line a call.
pub struct Tally(Vec<Line>);

impl Tally {
    pub fn of(calls: impl IntoIterator<Item = (&'static str, &'static [u32])>) -> Tally {
        let line = |(name, refusals)| Line { name, refusals, counts: [0; 15] };
        Tally(calls.into_iter().map(line).collect())
    }

    /// Counts an answer of the call with this index.
    pub fn add(&mut self, call: usize, refusal: u32) {
        self.0[call].counts[refusal as usize] += 1;
    }

    pub fn accepted(&self) -> u64 {
        self.0.iter().map(|line| line.counts[0]).sum()
    }

    pub fn calls(&self) -> u64 {
        self.0.iter().map(Line::calls).sum()
    }

    /// One line a call: the calls, those accepted, then each refusal that applies.
    pub fn print(&self) {
        println!("call      calls accepted  refused: number x times");
        for line in &self.0 {
            let number = |number: &u32| format!("{number} x {}", line.counts[*number as usize]);
            let refusals: Vec<String> = line.refusals.iter().map(number).collect();
            println!("{:7} {:7} {:8}  {}", line.name, line.calls(), line.counts[0], refusals.join(", "));
        }
    }

    /// What a run must show: calls enough, half of them accepted, and each refusal of each call often enough.
    pub fn demands(&self) -> Result<(), String> {
        if self.calls() < CALLS {
            return Err(format!("fewer than {CALLS} calls were made"));
        }
        if self.accepted() * 2 < self.calls() {
            return Err("fewer than half of the calls were accepted".into());
        }
        self.each(LEAST)
    }

    /// Each call was accepted, and refused by each of its numbers, often enough.
    pub fn each(&self, least: u64) -> Result<(), String> {
        for line in &self.0 {
            for number in [&0].into_iter().chain(line.refusals) {
                if line.counts[*number as usize] < least {
                    return Err(format!("{} gave refusal {number} (0: none) fewer than {least} times", line.name));
                }
            }
        }
        Ok(())
    }
}

#[test]
fn a_run_needs_calls_enough_and_every_refusal() {
    let mut tally = Tally::of([("map", &[10][..])]);
    (0..CALLS - 1).for_each(|_| tally.add(0, 0));
    assert!(tally.demands().is_err_and(|text| text.contains("calls")));
    tally.add(0, 10);
    assert!(tally.demands().is_err_and(|text| text.contains("refusal 10")));
    (1..LEAST).for_each(|_| tally.add(0, 10));
    assert_eq!(tally.demands(), Ok(()));
}
