// Backtracking with the steps of the definition. Clauses of two and three literals lie in flat lists behind the literals
// that stand in them; the one long clause, of all output variables, is looked at as a whole.
use crate::formula::Formula;

pub enum Verdict {
    Found,
    None,
    Undecided,
}

// A literal is twice its variable, plus 1 if negated; variables count from 0.
type Literal = usize;

const OPEN: u8 = 2;

#[derive(Default)]
struct Lists<T> {
    starts: Vec<u32>, // by literal; entries of a literal end where those of the next one start
    entries: Vec<T>,
}

impl<T: Copy> Lists<T> {
    // Lists from pairs of a literal and an entry: counted first, then each put into its place, from the last to the first.
    fn fill(&mut self, literals: usize, pairs: &[(u16, T)]) {
        let Some(&(_, any)) = pairs.first() else { return self.fill_none(literals) };
        self.starts.clear();
        self.starts.resize(literals + 1, 0);
        for pair in pairs {
            self.starts[usize::from(pair.0)] += 1;
        }
        let mut sum = 0;
        for start in &mut self.starts {
            sum += *start;
            *start = sum;
        }
        self.entries.clear();
        self.entries.resize(pairs.len(), any);
        for &(literal, entry) in pairs.iter().rev() {
            let start = &mut self.starts[usize::from(literal)];
            *start -= 1;
            self.entries[*start as usize] = entry;
        }
    }

    fn fill_none(&mut self, literals: usize) {
        self.starts.clear();
        self.starts.resize(literals + 1, 0);
        self.entries.clear();
    }

    fn of(&self, literal: Literal) -> &[T] {
        &self.entries[self.starts[literal] as usize..self.starts[literal + 1] as usize]
    }
}

// The literals made true, in order, and what that makes of every literal.
#[derive(Default)]
struct Trail {
    values: Vec<u8>, // by literal: 0, 1 or open
    literals: Vec<u16>,
    seen: usize, // the literals whose clauses have been looked at
}

impl Trail {
    fn clear(&mut self, literals: usize) {
        self.values.clear();
        self.values.resize(literals, OPEN);
        self.literals.clear();
        self.seen = 0;
    }

    fn set(&mut self, literal: Literal) {
        self.values[literal] = 1;
        self.values[literal ^ 1] = 0;
        self.literals.push(literal as u16);
    }

    // A literal that must be true; false if it cannot be.
    fn force(&mut self, literal: Literal) -> bool {
        match self.values[literal] {
            OPEN => self.set(literal),
            value => return value == 1,
        }
        true
    }

    fn undo_to(&mut self, length: usize) {
        for &literal in &self.literals[length..] {
            self.values[usize::from(literal)] = OPEN;
            self.values[usize::from(literal) ^ 1] = OPEN;
        }
        self.literals.truncate(length);
        self.seen = length;
    }

    fn lowest_open(&self, from: usize) -> Option<usize> {
        (from..self.values.len() / 2).find(|&variable| self.values[2 * variable] == OPEN)
    }
}

#[derive(Default)]
pub struct Solver {
    pairs: Lists<u16>,          // the other literal
    triples: Lists<(u16, u16)>, // the two others
    long: Vec<u16>,
    long_from: Literal, // literals from here on, if even, stand in the long clause
    units: Vec<u16>,
    trail: Trail,
}

fn coded(literal: i32) -> u16 {
    (2 * (literal.unsigned_abs() - 1) + u32::from(literal < 0)) as u16
}

impl Solver {
    pub fn pose(&mut self, formula: &Formula) {
        let (mut pairs, mut triples) = (vec![], vec![]);
        self.units.clear();
        let (last, clauses) = formula.clauses.split_last().expect("the clause of the outputs");
        for clause in clauses {
            match *clause.as_slice() {
                [a] => self.units.push(coded(a)),
                [a, b] => pairs.extend([(a, b), (b, a)].map(|(x, y)| (coded(x), coded(y)))),
                [a, b, c] => triples.extend([(a, b, c), (b, a, c), (c, a, b)].map(|(x, y, z)| (coded(x), (coded(y), coded(z))))),
                _ => unreachable!("a gate has at most two pins"),
            }
        }
        self.long = last.iter().map(|&literal| coded(literal)).collect();
        self.long_from = usize::from(self.long[0]);
        if self.long.len() == 1 {
            self.units.push(self.long[0]);
        }
        let literals = 2 * formula.variables;
        self.pairs.fill(literals, &pairs);
        self.triples.fill(literals, &triples);
        self.trail.clear(literals);
    }

    fn close_pairs(&mut self, gone: Literal) -> bool {
        self.pairs.of(gone).iter().all(|&other| self.trail.force(usize::from(other)))
    }

    fn close_triples(&mut self, gone: Literal) -> bool {
        let trail = &mut self.trail;
        self.triples.of(gone).iter().all(|&(a, b)| {
            let (a, b) = (usize::from(a), usize::from(b));
            match (trail.values[a], trail.values[b]) {
                (0, _) => trail.force(b),
                (_, 0) => trail.force(a),
                _ => true,
            }
        })
    }

    fn close_long(&mut self) -> bool {
        let mut lone = None;
        for &literal in &self.long {
            match (self.trail.values[usize::from(literal)], lone) {
                (1, _) | (OPEN, Some(_)) => return true,
                (OPEN, None) => lone = Some(usize::from(literal)),
                _ => {}
            }
        }
        lone.is_some_and(|literal| self.trail.force(literal))
    }

    // Closure; false if it is violated.
    fn close(&mut self) -> bool {
        while let Some(&literal) = self.trail.literals.get(self.trail.seen) {
            let gone = usize::from(literal) ^ 1;
            self.trail.seen += 1;
            let in_long = gone >= self.long_from && gone % 2 == 0;
            if !self.close_pairs(gone) || !self.close_triples(gone) || in_long && !self.close_long() {
                return false;
            }
        }
        true
    }

    fn close_first(&mut self) -> bool {
        self.units.iter().all(|&literal| self.trail.force(usize::from(literal))) && self.close()
    }

    pub fn solve(&mut self, budget: u64) -> (Verdict, u64) {
        let mut decisions: Vec<(usize, usize)> = vec![];
        let (mut steps, mut from) = (0, 0);
        let mut sound = self.close_first();
        loop {
            if sound {
                let Some(variable) = self.trail.lowest_open(from) else { return (Verdict::Found, steps) };
                if steps == budget {
                    return (Verdict::Undecided, steps);
                }
                decisions.push((self.trail.literals.len(), variable));
                self.trail.set(2 * variable + 1);
                from = variable + 1;
            } else {
                let Some(&(length, variable)) = decisions.last() else { return (Verdict::None, steps) };
                if steps == budget {
                    return (Verdict::Undecided, steps);
                }
                decisions.pop();
                self.trail.undo_to(length);
                self.trail.set(2 * variable);
                from = variable + 1;
            }
            steps += 1;
            sound = self.close();
        }
    }

    // The bit of a variable, counted from 0, after found.
    pub fn bit(&self, variable: usize) -> bool {
        self.trail.values[2 * variable] == 1
    }
}
