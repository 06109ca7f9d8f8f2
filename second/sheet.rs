// The sheet of a card: every open fault taken, searched, closed, new vectors swept; then the text.
use crate::card::read;
use crate::job::{Job, Mark, Solver};
use std::fmt::Write;

const BUDGET: u64 = 1_000_000;

// Works through the faults and answers the steps of all searches.
pub fn work(job: &mut Job) -> u64 {
    let mut steps = 0;
    for fault in 0..job.faults() as u64 {
        if job.mark(fault).unwrap().0 != Mark::Open {
            continue;
        }
        job.take(fault).unwrap();
        let searched = job.search(fault, Solver::Backtracking, BUDGET);
        job.close(fault).unwrap();
        steps += searched.map_or(0, |(_, steps)| steps);
        if let Ok((Mark::Detected(vector), _)) = searched {
            job.sweep(vector as u64).unwrap();
        }
    }
    steps
}

pub fn text(job: &Job) -> String {
    let counts = job.counts();
    let mut text = String::new();
    let mut line = |words: String| writeln!(text, "{words}").unwrap();
    line(format!("faults {} detected {} untestable {} open {}", job.faults(), counts.detected, counts.untestable, counts.open));
    for vector in 0..job.vectors() as u64 {
        let (cells, outputs) = job.vector(vector).unwrap();
        line(format!("vector {vector} {cells} {outputs}"));
    }
    for fault in 0..job.faults() as u64 {
        match job.mark(fault).unwrap().0 {
            Mark::Open => line(format!("fault {fault} open")),
            Mark::Untestable => line(format!("fault {fault} untestable")),
            Mark::Detected(_) => {}
        }
    }
    text
}

pub fn sheet(bytes: &[u8]) -> String {
    match read(bytes) {
        Err((number, offset)) => format!("card refused {number} at {offset}\n"),
        Ok(card) => {
            let mut job = Job::new(card);
            work(&mut job);
            text(&job)
        }
    }
}
