// Both solvers once more, made fast enough for cards of full size: a literal that becomes false leads to the clauses
// in which it stands. The end of a closure does not depend on its order, so answers, readings and steps are those of solve.rs.
use crate::formula::Formula;
use crate::solve::Answer;

struct Closing<'a> {
    formula: &'a Formula,
    standing: Vec<Vec<usize>>, // by literal, the clauses in which it stands
    short: Vec<usize>,         // the clauses of at most one place
    bits: Vec<Option<bool>>,   // by variable from 1; place 0 is unused
    trail: Vec<i32>,
    seen: usize, // the literals of the trail whose clauses have been looked at
}

enum State {
    Broken,
    Lone(i32),
    Other,
}

fn index(literal: i32) -> usize {
    2 * literal.unsigned_abs() as usize + (literal < 0) as usize
}

impl<'a> Closing<'a> {
    fn new(formula: &'a Formula) -> Self {
        let mut standing = vec![vec![]; 2 * formula.variables + 2];
        for (c, clause) in formula.clauses.iter().enumerate() {
            for &literal in clause {
                standing[index(literal)].push(c);
            }
        }
        let short = (0..formula.clauses.len()).filter(|&c| formula.clauses[c].len() <= 1).collect();
        Closing { formula, standing, short, bits: vec![None; formula.variables + 1], trail: vec![], seen: 0 }
    }

    fn value(&self, literal: i32) -> Option<bool> {
        self.bits[literal.unsigned_abs() as usize].map(|bit| bit == (literal > 0))
    }

    fn set(&mut self, literal: i32) {
        self.bits[literal.unsigned_abs() as usize] = Some(literal > 0);
        self.trail.push(literal);
    }

    fn state(&self, clause: usize) -> State {
        let mut lone = None;
        for &literal in &self.formula.clauses[clause] {
            match (self.value(literal), lone) {
                (Some(true), _) | (None, Some(_)) => return State::Other,
                (None, None) => lone = Some(literal),
                (Some(false), _) => {}
            }
        }
        lone.map_or(State::Broken, State::Lone)
    }

    // Sets what the clause forces; false if it is violated.
    fn look(&mut self, clause: usize) -> bool {
        match self.state(clause) {
            State::Broken => return false,
            State::Lone(literal) => self.set(literal),
            State::Other => {}
        }
        true
    }

    // Closure after literals were put on the trail; false if it is violated.
    fn close(&mut self) -> bool {
        while self.seen < self.trail.len() {
            let false_now = index(-self.trail[self.seen]);
            self.seen += 1;
            for i in 0..self.standing[false_now].len() {
                if !self.look(self.standing[false_now][i]) {
                    return false;
                }
            }
        }
        true
    }

    // Closure from literals set while no clause had been looked at.
    fn close_afresh(&mut self) -> bool {
        for i in 0..self.short.len() {
            if !self.look(self.short[i]) {
                return false;
            }
        }
        self.close()
    }

    fn undo_to(&mut self, length: usize) {
        for literal in self.trail.drain(length..) {
            self.bits[literal.unsigned_abs() as usize] = None;
        }
        self.seen = length;
    }

    // The lowest open variable that is `from` or above.
    fn lowest_open(&self, from: usize) -> Option<usize> {
        (from..self.bits.len()).find(|&variable| self.bits[variable].is_none())
    }

    fn reading(&self) -> Vec<bool> {
        self.bits[1..].iter().map(|bit| bit.unwrap()).collect()
    }
}

pub fn backtracking(formula: &Formula, budget: u64) -> (Answer, u64) {
    let mut closing = Closing::new(formula);
    let mut steps = 0;
    let mut decisions: Vec<(usize, usize)> = vec![]; // the length of the trail before it, and the variable
    let mut from = 1;
    let mut sound = closing.close_afresh();
    loop {
        let next = if sound {
            match closing.lowest_open(from) {
                None => return (Answer::Found(closing.reading()), steps),
                Some(variable) => -(variable as i32),
            }
        } else {
            match decisions.last() {
                None => return (Answer::None, steps),
                Some(&(_, variable)) => variable as i32,
            }
        };
        if steps == budget {
            return (Answer::Undecided, steps);
        }
        steps += 1;
        from = next.unsigned_abs() as usize + 1;
        if next > 0 {
            closing.undo_to(decisions.pop().unwrap().0);
        } else {
            decisions.push((closing.trail.len(), -next as usize));
        }
        closing.set(next);
        sound = closing.close();
    }
}

pub fn counting(formula: &Formula, budget: u64) -> (Answer, u64) {
    let mut closing = Closing::new(formula);
    let k = formula.leading;
    for number in 0..1u64 << k {
        if number == budget {
            return (Answer::Undecided, number);
        }
        closing.undo_to(0);
        for j in 1..=k as i32 {
            closing.set(if number >> (k as i32 - j) & 1 == 1 { j } else { -j });
        }
        if closing.close_afresh() {
            return match closing.lowest_open(1) {
                Some(_) => (Answer::Undecided, number + 1),
                None => (Answer::Found(closing.reading()), number + 1),
            };
        }
    }
    (Answer::None, 1 << k)
}
