// The program `shift`: a card, then one call a line and one answer a line, with the tickets kept by fault number.
use crate::card::Netlist;
use crate::job::{Job, Mark, Refused, Solver};
use std::collections::BTreeSet;

pub struct Shift {
    pub job: Job,
    pub tickets: BTreeSet<u64>,
}

enum Call {
    Take(u64),
    Search(u64, u64, Solver),
    Close(u64),
    Sweep(u64),
    Add(u32, u32),
    Merge(u64, u64),
    Mark(u64),
    Vector(u64),
    Counts,
}

// One or more ASCII digits whose number is at most `most`.
fn number(word: &str, most: u64) -> Option<u64> {
    if word.is_empty() {
        return None;
    }
    word.bytes().try_fold(0u64, |sum, byte| {
        let digit = u64::from(byte.is_ascii_digit().then(|| byte - b'0')?);
        sum.checked_mul(10)?.checked_add(digit).filter(|&next| next <= most)
    })
}

fn call(line: &str) -> Option<Call> {
    let long = |word: &str| number(word, u64::MAX);
    let short = |word: &str| number(word, u64::from(u32::MAX)).map(|n| n as u32);
    let words: Vec<&str> = line.split(' ').collect();
    Some(match words.as_slice() {
        ["take", f] => Call::Take(long(f)?),
        ["search", f, b] => Call::Search(long(f)?, long(b)?, Solver::Backtracking),
        ["search", f, b, "counting"] => Call::Search(long(f)?, long(b)?, Solver::Counting),
        ["close", f] => Call::Close(long(f)?),
        ["sweep", v] => Call::Sweep(long(v)?),
        ["add", care, value] => Call::Add(short(care)?, short(value)?),
        ["merge", i, j] => Call::Merge(long(i)?, long(j)?),
        ["mark", f] => Call::Mark(long(f)?),
        ["vector", v] => Call::Vector(long(v)?),
        ["counts"] => Call::Counts,
        _ => return None,
    })
}

fn searched((mark, steps): (Mark, u64)) -> String {
    match mark {
        Mark::Detected(vector) => format!("found vector {vector} steps {steps}"),
        Mark::Untestable => format!("none steps {steps}"),
        Mark::Open => format!("undecided steps {steps}"),
    }
}

fn marked((mark, taken): (Mark, bool)) -> String {
    let name = match mark {
        Mark::Open => "open".to_string(),
        Mark::Detected(vector) => format!("detected {vector}"),
        Mark::Untestable => "untestable".to_string(),
    };
    name + if taken { " taken" } else { "" }
}

impl Shift {
    pub fn new(card: Netlist) -> Self {
        Shift { job: Job::new(card), tickets: BTreeSet::new() }
    }

    fn take(&mut self, fault: u64) -> Result<String, Refused> {
        self.job.take(fault)?;
        assert!(self.tickets.insert(fault), "a second ticket for one fault");
        Ok("taken".to_string())
    }

    fn close(&mut self, fault: u64) -> Result<String, Refused> {
        self.job.close(fault)?;
        self.tickets.remove(&fault);
        Ok("closed".to_string())
    }

    fn counted(&self) -> String {
        let c = self.job.counts();
        format!("open {} detected {} untestable {} taken {}", c.open, c.detected, c.untestable, c.taken)
    }

    fn granted(&mut self, call: Call) -> Result<String, Refused> {
        match call {
            Call::Take(fault) => self.take(fault),
            Call::Search(fault, ..) | Call::Close(fault) if !self.tickets.contains(&fault) => Ok("no ticket".to_string()),
            Call::Search(fault, budget, solver) => self.job.search(fault, solver, budget).map(searched),
            Call::Close(fault) => self.close(fault),
            Call::Sweep(vector) => self.job.sweep(vector).map(|count| format!("swept {count}")),
            Call::Add(care, value) => self.job.add(care, value).map(|vector| format!("added {vector}")),
            Call::Merge(i, j) => self.job.merge(i, j).map(|()| "merged".to_string()),
            Call::Mark(fault) => self.job.mark(fault).map(marked),
            Call::Vector(vector) => self.job.vector(vector).map(|(cells, outputs)| format!("{cells} {outputs}")),
            Call::Counts => Ok(self.counted()),
        }
    }

    // The answer to one line.
    pub fn answer(&mut self, line: &str) -> String {
        match call(line) {
            None => "not a call".to_string(),
            Some(call) => self.granted(call).unwrap_or_else(|refusal| format!("refused {refusal}")),
        }
    }

    // Closes what is left.
    pub fn end(mut self) -> String {
        let left = self.tickets.len();
        for fault in std::mem::take(&mut self.tickets) {
            self.job.close(fault).expect("a ticket of this job");
        }
        format!("closed at end {left}")
    }
}
