// A job: marks, taken faults and vectors of a card, and the calls on them with their refusals.
// A ticket is a fault number here; who may hold one is the caller's affair.
use crate::card::Netlist;
use crate::catch::Lines;
use crate::formula::formula;
use crate::quick::{backtracking, counting};
use crate::solve::Answer;

pub const MOST_VECTORS: usize = 512;

#[derive(Clone, Copy, PartialEq, Debug)]
pub enum Mark {
    Open,
    Detected(usize),
    Untestable,
}

#[derive(Clone, Copy, PartialEq)]
pub enum Solver {
    Backtracking,
    Counting,
}

// The number of a refusal.
pub type Refused = u32;

pub struct Job {
    lines: Lines,
    marks: Vec<Mark>,
    taken: Vec<bool>,
    vectors: Vec<Vec<u8>>, // rows of cells
}

pub struct Counts {
    pub open: usize,
    pub detected: usize,
    pub untestable: usize,
    pub taken: usize,
}

// The place of a number in a list of this length, or the refusal.
fn place(number: u64, length: usize, refusal: Refused) -> Result<usize, Refused> {
    usize::try_from(number).ok().filter(|&at| at < length).ok_or(refusal)
}

impl Job {
    pub fn new(card: Netlist) -> Self {
        let lines = Lines::new(card);
        let faults = lines.faults();
        Job { lines, marks: vec![Mark::Open; faults], taken: vec![false; faults], vectors: vec![] }
    }

    pub fn faults(&self) -> usize {
        self.marks.len()
    }

    pub fn vectors(&self) -> usize {
        self.vectors.len()
    }

    pub fn take(&mut self, fault: u64) -> Result<(), Refused> {
        let fault = place(fault, self.marks.len(), 9)?;
        if self.taken[fault] {
            return Err(10);
        }
        if self.marks[fault] != Mark::Open {
            return Err(11);
        }
        self.taken[fault] = true;
        Ok(())
    }

    // The fault of a ticket that counts here.
    fn held(&self, ticket: u64) -> Result<usize, Refused> {
        place(ticket, self.marks.len(), 12).and_then(|fault| if self.taken[fault] { Ok(fault) } else { Err(12) })
    }

    fn room(&self) -> Result<(), Refused> {
        if self.vectors.len() == MOST_VECTORS { Err(14) } else { Ok(()) }
    }

    // The fault's mark afterwards, and the solver's steps.
    pub fn search(&mut self, ticket: u64, solver: Solver, budget: u64) -> Result<(Mark, u64), Refused> {
        let fault = self.held(ticket)?;
        if self.marks[fault] != Mark::Open {
            return Err(13);
        }
        self.room()?;
        let posed = formula(&self.lines.card, fault);
        let (answer, steps) = match solver {
            Solver::Backtracking => backtracking(&posed, budget),
            Solver::Counting => counting(&posed, budget),
        };
        match answer {
            Answer::Undecided => {}
            Answer::None => self.marks[fault] = Mark::Untestable,
            Answer::Found(reading) => {
                self.marks[fault] = Mark::Detected(self.vectors.len());
                self.vectors.push(self.lines.thinned(&reading[..posed.leading], fault));
            }
        }
        Ok((self.marks[fault], steps))
    }

    pub fn close(&mut self, ticket: u64) -> Result<(), Refused> {
        let fault = self.held(ticket)?;
        self.taken[fault] = false;
        Ok(())
    }

    pub fn sweep(&mut self, vector: u64) -> Result<usize, Refused> {
        let i = place(vector, self.vectors.len(), 15)?;
        let good = self.lines.good(&self.vectors[i]);
        let mut swept = 0;
        for fault in 0..self.marks.len() {
            if self.marks[fault] == Mark::Open && !self.taken[fault] && self.lines.catches(&good, fault) {
                self.marks[fault] = Mark::Detected(i);
                swept += 1;
            }
        }
        Ok(swept)
    }

    pub fn add(&mut self, care: u32, value: u32) -> Result<usize, Refused> {
        let k = self.lines.card.inputs;
        if u64::from(care) >> k != 0 || value & !care != 0 {
            return Err(16);
        }
        self.room()?;
        let cell = |j: usize| if care >> j & 1 == 0 { b'X' } else { b'0' + (value >> j & 1) as u8 };
        self.vectors.push((0..k).map(cell).collect());
        Ok(self.vectors.len() - 1)
    }

    pub fn merge(&mut self, first: u64, second: u64) -> Result<(), Refused> {
        let i = place(first, self.vectors.len(), 15)?;
        let j = place(second, self.vectors.len(), 15)?;
        if i == j {
            return Err(17);
        }
        let cells: Option<Vec<u8>> = self.vectors[i].iter().zip(&self.vectors[j]).map(|(&a, &b)| both(a, b)).collect();
        self.vectors[i] = cells.ok_or(18u32)?;
        self.vectors.remove(j);
        for mark in &mut self.marks {
            if let Mark::Detected(v) = *mark {
                let kept = if v == j { i } else { v };
                *mark = Mark::Detected(if kept > j { kept - 1 } else { kept });
            }
        }
        Ok(())
    }

    // The mark of a fault, and whether it is taken.
    pub fn mark(&self, fault: u64) -> Result<(Mark, bool), Refused> {
        let fault = place(fault, self.marks.len(), 9)?;
        Ok((self.marks[fault], self.taken[fault]))
    }

    // The cells of a vector, and the outputs that a good card shows.
    pub fn vector(&self, vector: u64) -> Result<(String, String), Refused> {
        let row = &self.vectors[place(vector, self.vectors.len(), 15)?];
        Ok((String::from_utf8(row.clone()).unwrap(), self.lines.shown(row)))
    }

    pub fn counts(&self) -> Counts {
        let open = self.marks.iter().filter(|&&mark| mark == Mark::Open).count();
        let untestable = self.marks.iter().filter(|&&mark| mark == Mark::Untestable).count();
        let taken = self.taken.iter().filter(|&&taken| taken).count();
        Counts { open, detected: self.marks.len() - open - untestable, untestable, taken }
    }
}

// The cell that has the fixed bits of both; none if they are opposite.
fn both(a: u8, b: u8) -> Option<u8> {
    match (a, b) {
        (a, b'X') => Some(a),
        (b'X', b) => Some(b),
        _ => (a == b).then_some(a),
    }
}
