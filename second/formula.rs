// The formula of a fault: clauses that tie together the good card, the faulty card and their differing outputs.
// Variables, clauses and their order are those of the rules.
use crate::card::Netlist;
use crate::faults::sites;
use crate::walk::Site;

pub struct Formula {
    pub variables: usize,
    pub leading: usize,
    pub clauses: Vec<Vec<i32>>,
}

impl Formula {
    pub fn places(&self) -> usize {
        self.clauses.iter().map(|clause| clause.len() + 1).sum()
    }
}

// The clauses of the ten functions, with 1, 2 and 3 for the gate's net and its pins.
const TABLE: [&[&[i32]]; 10] = [
    &[&[-1, 2], &[1, -2]],
    &[&[-1, 2], &[-1, 3], &[1, -2, -3]],
    &[&[1, -2], &[1, -3], &[-1, 2, 3]],
    &[&[-1, 2, 3], &[1, -2, 3], &[1, 2, -3], &[-1, -2, -3]],
    &[&[1, 2], &[-1, -2]],
    &[&[1, 2], &[1, 3], &[-1, -2, -3]],
    &[&[-1, -2], &[-1, -3], &[1, 2, 3]],
    &[&[1, 2, 3], &[-1, -2, 3], &[-1, 2, -3], &[1, -2, -3]],
    &[&[-1]],
    &[&[1]],
];

const COPY: u8 = 0;
const DIFFERS: u8 = 3;

// A function's clauses, where `names` are the variables of the gate's net and of its pins.
fn tie(clauses: &mut Vec<Vec<i32>>, function: u8, names: &[usize]) {
    for row in TABLE[function as usize] {
        clauses.push(row.iter().map(|&code| code.signum() * names[code.unsigned_abs() as usize - 1] as i32).collect());
    }
}

// The faulty net j: a copy of the stuck line, a copy of the good input, or its gate with a stuck pin or none.
fn tie_faulty(clauses: &mut Vec<Vec<i32>>, card: &Netlist, j: usize, stuck: Site) {
    let n = card.inputs + card.gates.len();
    let (line, net) = (2 * n + 1, n + j + 1);
    if stuck == Site::Net(j) {
        return tie(clauses, COPY, &[net, line]);
    }
    if j < card.inputs {
        return tie(clauses, COPY, &[net, j + 1]);
    }
    let gate = &card.gates[j - card.inputs];
    let pins = gate.reads.iter().enumerate().map(|(p, &read)| if stuck == Site::Pin(j, p) { line } else { n + read + 1 });
    let names: Vec<usize> = std::iter::once(net).chain(pins).collect();
    tie(clauses, gate.function, &names)
}

// The formula of a fault that the card has.
pub fn formula(card: &Netlist, fault: usize) -> Formula {
    let (n, m) = (card.inputs + card.gates.len(), card.outputs.len());
    let stuck = sites(card)[fault / 2];
    let line = 2 * n as i32 + 1;
    let mut clauses = vec![];
    for (i, gate) in card.gates.iter().enumerate() {
        let names: Vec<usize> = std::iter::once(card.inputs + i).chain(gate.reads.iter().copied()).map(|net| net + 1).collect();
        tie(&mut clauses, gate.function, &names);
    }
    clauses.push(vec![if fault % 2 == 1 { line } else { -line }]);
    for j in 0..n {
        tie_faulty(&mut clauses, card, j, stuck);
    }
    for (i, &net) in card.outputs.iter().enumerate() {
        tie(&mut clauses, DIFFERS, &[2 * n + 2 + i, net + 1, n + net + 1]);
    }
    clauses.push((0..m).map(|i| (2 * n + 2 + i) as i32).collect());
    Formula { variables: 2 * n + 1 + m, leading: card.inputs, clauses }
}
