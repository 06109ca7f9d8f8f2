// The sheet of a card, and what its searches cost.
use crate::card::{read, Netlist};
use crate::formula::formula;
use crate::lines::Lines;
use crate::solver::{Solver, Verdict};
use std::fmt::Write;

const BUDGET: u64 = 1_000_000;
const MOST_VECTORS: usize = 512;

#[derive(Clone, Copy, PartialEq)]
enum Mark {
    Open,
    Detected,
    Untestable,
}

#[derive(Default)]
pub struct Effort {
    pub searches: u64,
    pub undecided: u64,
    pub steps: u64,
}

struct Work {
    card: Netlist,
    lines: Lines,
    solver: Solver,
    marks: Vec<Mark>,
    vectors: Vec<Vec<u8>>,
    effort: Effort,
}

impl Work {
    fn search(&mut self, fault: usize) {
        self.solver.pose(&formula(&self.card, fault));
        let (verdict, steps) = self.solver.solve(BUDGET);
        self.effort.searches += 1;
        self.effort.steps += steps;
        match verdict {
            Verdict::Undecided => self.effort.undecided += 1,
            Verdict::None => self.marks[fault] = Mark::Untestable,
            Verdict::Found => {
                let solver = &self.solver;
                let cells = self.lines.thin((0..self.card.inputs).map(|j| solver.bit(j)), fault);
                self.marks[fault] = Mark::Detected;
                self.sweep(&cells);
                self.vectors.push(cells);
            }
        }
    }

    fn sweep(&mut self, cells: &[u8]) {
        self.lines.enter(cells);
        for fault in 0..self.marks.len() {
            if self.marks[fault] == Mark::Open && self.lines.catches(fault) {
                self.marks[fault] = Mark::Detected;
            }
        }
    }

    fn text(&mut self) -> String {
        let count = |mark: Mark| self.marks.iter().filter(|&&m| m == mark).count();
        let (detected, untestable, open) = (count(Mark::Detected), count(Mark::Untestable), count(Mark::Open));
        let mut text = format!("faults {} detected {detected} untestable {untestable} open {open}\n", self.marks.len());
        for (number, cells) in self.vectors.iter().enumerate() {
            let (row, outputs) = self.lines.print(cells);
            writeln!(text, "vector {number} {row} {outputs}").unwrap();
        }
        for (fault, mark) in self.marks.iter().enumerate() {
            match mark {
                Mark::Open => writeln!(text, "fault {fault} open").unwrap(),
                Mark::Untestable => writeln!(text, "fault {fault} untestable").unwrap(),
                Mark::Detected => {}
            }
        }
        text
    }
}

pub fn sheet(bytes: &[u8]) -> (String, Effort) {
    let card = match read(bytes) {
        Ok(card) => card,
        Err((number, offset)) => return (format!("card refused {number} at {offset}\n"), Effort::default()),
    };
    let lines = Lines::new(&card);
    let marks = vec![Mark::Open; lines.faults()];
    let mut work = Work { card, lines, solver: Solver::default(), marks, vectors: vec![], effort: Effort::default() };
    for fault in 0..work.marks.len() {
        if work.marks[fault] == Mark::Open && work.vectors.len() < MOST_VECTORS {
            work.search(fault);
        }
    }
    (work.text(), work.effort)
}
