// Three-valued walks without and with a stuck line, catching and thinning. A value is the set of the bits that it allows:
// 1 for 0, 2 for 1, 3 for X.
use crate::card::Netlist;
use crate::faults::sites;
use crate::walk::Site;

const X: u8 = 3;

#[derive(Clone, Copy)]
struct Gate {
    function: u8,
    pins: [u16; 2],
}

pub struct Lines {
    inputs: usize,
    gates: Vec<Gate>,
    outputs: Vec<usize>,
    sites: Vec<Site>,
    good: Vec<u8>,
    faulty: Vec<u8>,
}

fn not(a: u8) -> u8 {
    (a & 1) << 1 | a >> 1
}

fn and(a: u8, b: u8) -> u8 {
    (a | b) & 1 | a & b & 2
}

fn xor(a: u8, b: u8) -> u8 {
    let (flipped, kept) = (not(a) & 0u8.wrapping_sub(b >> 1), a & 0u8.wrapping_sub(b & 1));
    flipped | kept
}

fn value(function: u8, a: u8, b: u8) -> u8 {
    match function {
        0 => a,
        1 => and(a, b),
        2 => not(and(not(a), not(b))),
        3 => xor(a, b),
        4 => not(a),
        5 => not(and(a, b)),
        6 => and(not(a), not(b)),
        7 => not(xor(a, b)),
        8 => 1,
        _ => 2,
    }
}

fn sign(value: u8) -> char {
    [' ', '0', '1', 'X'][usize::from(value)]
}

impl Lines {
    pub fn new(card: &Netlist) -> Self {
        let gates = card.gates.iter().map(|gate| {
            let pin = |p: usize| gate.reads.get(p).copied().unwrap_or(0) as u16;
            Gate { function: gate.function, pins: [pin(0), pin(1)] }
        });
        let nets = card.inputs + card.gates.len();
        let gates = gates.collect();
        Lines { inputs: card.inputs, gates, outputs: card.outputs.clone(), sites: sites(card), good: vec![0; nets], faulty: vec![0; nets] }
    }

    pub fn faults(&self) -> usize {
        2 * self.sites.len()
    }

    // Walks the good card with these cells.
    pub fn enter(&mut self, cells: &[u8]) {
        self.good[..self.inputs].copy_from_slice(cells);
        for (i, gate) in self.gates.iter().enumerate() {
            let [a, b] = gate.pins.map(|net| self.good[usize::from(net)]);
            self.good[self.inputs + i] = value(gate.function, a, b);
        }
    }

    // Whether the cells that were entered catch the fault.
    pub fn catches(&mut self, fault: usize) -> bool {
        let level = 1 << (fault % 2);
        self.faulty.copy_from_slice(&self.good);
        let at = match self.sites[fault / 2] {
            Site::Net(j) => {
                self.faulty[j] = level;
                j
            }
            Site::Pin(j, p) => {
                let gate = self.gates[j - self.inputs];
                let mut pins = gate.pins.map(|net| self.good[usize::from(net)]);
                pins[p] = level;
                self.faulty[j] = value(gate.function, pins[0], pins[1]);
                j
            }
        };
        if self.faulty[at] == self.good[at] {
            return false;
        }
        for i in (at + 1).saturating_sub(self.inputs)..self.gates.len() {
            let gate = self.gates[i];
            let [a, b] = gate.pins.map(|net| self.faulty[usize::from(net)]);
            self.faulty[self.inputs + i] = value(gate.function, a, b);
        }
        self.outputs.iter().any(|&net| self.good[net] & self.faulty[net] == 0)
    }

    // The cells of a setting that shows the fault, freed in rising order where they may be.
    pub fn thin(&mut self, setting: impl Iterator<Item = bool>, fault: usize) -> Vec<u8> {
        let mut cells: Vec<u8> = setting.map(|bit| 1 << u8::from(bit)).collect();
        for j in 0..cells.len() {
            let fixed = std::mem::replace(&mut cells[j], X);
            self.enter(&cells);
            if !self.catches(fault) {
                cells[j] = fixed;
            }
        }
        cells
    }

    // Cells and outputs in print.
    pub fn print(&mut self, cells: &[u8]) -> (String, String) {
        self.enter(cells);
        (cells.iter().map(|&cell| sign(cell)).collect(), self.outputs.iter().map(|&net| sign(self.good[net])).collect())
    }
}
