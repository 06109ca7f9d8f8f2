// The same search in plain Rust, written for speed alone: literals as numbers, a truth value for each of them,
// and for each the clauses in which it stands, one list behind the other. For comparing times with the program `dimacs`.
use std::io::{self, Read};

#[derive(Clone, Copy, PartialEq)]
enum Truth {
    Open,
    True,
    False,
}

enum State {
    Broken,
    Lone(u16),
    Other,
}

struct Search {
    literals: Vec<u16>,
    starts: Vec<u16>,
    heads: Vec<u32>,
    stands: Vec<u16>,
    truths: Vec<Truth>,
    trail: Vec<u16>,
    decisions: Vec<(usize, usize)>,
}

fn number(literal: i32) -> u16 {
    ((literal.unsigned_abs() as u16 - 1) << 1) | (literal > 0) as u16
}

impl Search {
    fn new(variables: usize, clauses: &[Vec<i32>]) -> Search {
        let (mut literals, mut starts) = (vec![], vec![0]);
        let mut heads = vec![0u32; 2 * variables + 1];
        for clause in clauses {
            for &literal in clause {
                literals.push(number(literal));
                heads[number(literal) as usize + 1] += 1;
            }
            starts.push(literals.len() as u16);
        }
        for n in 1..heads.len() {
            heads[n] += heads[n - 1];
        }
        let (mut next, mut stands) = (heads.clone(), vec![0; literals.len()]);
        for (c, clause) in clauses.iter().enumerate() {
            for &literal in clause {
                let n = number(literal) as usize;
                stands[next[n] as usize] = c as u16;
                next[n] += 1;
            }
        }
        Search { literals, starts, heads, stands, truths: vec![Truth::Open; 2 * variables], trail: vec![], decisions: vec![] }
    }

    #[inline(always)]
    fn state(&self, clause: usize) -> State {
        let mut state = State::Broken;
        for i in self.starts[clause]..self.starts[clause + 1] {
            let literal = self.literals[i as usize];
            match self.truths[literal as usize] {
                Truth::True => return State::Other,
                Truth::False => {}
                Truth::Open => match state {
                    State::Broken => state = State::Lone(literal),
                    _ => return State::Other,
                },
            }
        }
        state
    }

    #[inline(always)]
    fn make(&mut self, literal: u16) {
        self.trail.push(literal);
        self.truths[literal as usize] = Truth::True;
        self.truths[literal as usize ^ 1] = Truth::False;
    }

    #[inline(always)]
    fn press(&mut self, clause: usize) -> bool {
        match self.state(clause) {
            State::Other => true,
            State::Broken => false,
            State::Lone(literal) => {
                self.make(literal);
                true
            }
        }
    }

    fn follow(&mut self, mut front: usize) -> bool {
        while front < self.trail.len() {
            let false_one = self.trail[front] as usize ^ 1;
            for i in self.heads[false_one]..self.heads[false_one + 1] {
                if !self.press(self.stands[i as usize] as usize) {
                    return false;
                }
            }
            front += 1;
        }
        true
    }

    fn solve(&mut self, budget: u64) -> (&'static str, u64) {
        let mut steps = 0;
        let mut whole = (0..self.starts.len() - 1).all(|c| self.press(c)) && self.follow(0);
        loop {
            let next = if whole {
                (0..self.truths.len() / 2).find(|&j| self.truths[2 * j] == Truth::Open).map(|j| (self.trail.len(), j))
            } else {
                self.decisions.last().copied()
            };
            let Some((at, j)) = next else {
                return (if whole { "found" } else { "none" }, steps);
            };
            if steps >= budget {
                return ("undecided", steps);
            }
            if whole {
                self.decisions.push((at, j));
            } else {
                self.decisions.pop();
                for literal in self.trail.drain(at..) {
                    self.truths[literal as usize] = Truth::Open;
                    self.truths[literal as usize ^ 1] = Truth::Open;
                }
            }
            self.make(2 * j as u16 + !whole as u16);
            steps += 1;
            whole = self.follow(self.trail.len() - 1);
        }
    }
}

fn main() {
    let mut text = String::new();
    io::stdin().read_to_string(&mut text).unwrap();
    let mut problems: Vec<(usize, u64, Vec<Vec<i32>>)> = vec![];
    let mut budget = 1_000_000;
    for line in text.lines() {
        match line.split_whitespace().collect::<Vec<_>>().as_slice() {
            ["c", "budget", b] => budget = b.parse().unwrap(),
            ["c", ..] | [] => {}
            ["p", _, v, _] => problems.push((v.parse().unwrap(), budget, vec![])),
            words => {
                let clause = words.iter().map(|w| w.parse().unwrap()).take_while(|&l| l != 0).collect();
                problems.last_mut().unwrap().2.push(clause);
            }
        }
    }
    for (variables, budget, clauses) in &problems {
        let (answer, steps) = Search::new(*variables, clauses).solve(*budget);
        println!("{answer} {steps}");
    }
}
