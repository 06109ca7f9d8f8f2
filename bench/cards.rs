// The cards on which the sheet is timed: c17, a ripple adder, a parity tree, and random ones of 256 nets.
use crate::card::{operands_of, write, Gate, Netlist};

// From the quickest to the slowest; only cards of 32 inputs have searches that end for want of budget.
pub const NAMES: &[&str] = &["c17", "adder4", "parity16", "random8", "random12", "random16", "parity32", "adder16", "random32a", "random32b"];

const AND: u8 = 1;
const OR: u8 = 2;
const XOR: u8 = 3;
const NAND: u8 = 5;

struct Maker(Netlist);

impl Maker {
    fn new(inputs: usize) -> Self {
        Maker(Netlist { inputs, gates: vec![], outputs: vec![] })
    }

    // A new gate; answers its net.
    fn gate(&mut self, function: u8, reads: &[usize]) -> usize {
        self.0.gates.push(Gate { function, reads: reads.to_vec() });
        self.0.inputs + self.0.gates.len() - 1
    }

    fn bytes(mut self, outputs: Vec<usize>) -> Vec<u8> {
        self.0.outputs = outputs;
        write(&self.0)
    }
}

fn c17() -> Vec<u8> {
    let mut maker = Maker::new(5);
    for pair in [[0, 2], [2, 3], [1, 6], [6, 4], [5, 7], [7, 8]] {
        maker.gate(NAND, &pair);
    }
    maker.bytes(vec![9, 10])
}

// Two numbers of `width` bits, inputs 0 to width - 1 and width to 2 width - 1, carry in 0; the sum's bits and the carry out.
fn adder(width: usize) -> Vec<u8> {
    let mut maker = Maker::new(2 * width);
    let mut sums = vec![maker.gate(XOR, &[0, width])];
    let mut carry = maker.gate(AND, &[0, width]);
    for j in 1..width {
        let half = maker.gate(XOR, &[j, width + j]);
        sums.push(maker.gate(XOR, &[half, carry]));
        let made = maker.gate(AND, &[j, width + j]);
        let passed = maker.gate(AND, &[half, carry]);
        carry = maker.gate(OR, &[made, passed]);
    }
    sums.push(carry);
    maker.bytes(sums)
}

fn parity(inputs: usize) -> Vec<u8> {
    let mut maker = Maker::new(inputs);
    let mut row: Vec<usize> = (0..inputs).collect();
    while row.len() > 1 {
        row = row.chunks(2).map(|pair| if let [a, b] = *pair { maker.gate(XOR, &[a, b]) } else { pair[0] }).collect();
    }
    maker.bytes(row)
}

// 256 nets and 32 outputs, drawn by a linear congruence so that the cards stay the same for good.
fn random(inputs: usize, mut state: u64) -> Vec<u8> {
    let mut below = |bound: usize| {
        state = state.wrapping_mul(6364136223846793005).wrapping_add(1442695040888963407);
        (state >> 33) as usize % bound
    };
    let mut maker = Maker::new(inputs);
    for nets in inputs..256 {
        let function = [1, 2, 3, 4, 5, 6, 7][below(7)];
        let pins = operands_of(0x30 + function).unwrap();
        let reads: Vec<usize> = (0..pins).map(|_| if below(3) == 0 { below(nets) } else { nets - 1 - below(nets.min(32)) }).collect();
        maker.gate(function, &reads);
    }
    let read: Vec<usize> = maker.0.gates.iter().flat_map(|gate| gate.reads.clone()).collect();
    let mut outputs: Vec<usize> = (0..256).rev().filter(|net| !read.contains(net)).collect();
    outputs.extend((0..256).rev().filter(|net| read.contains(net)));
    outputs.truncate(32);
    maker.bytes(outputs)
}

pub fn named(name: &str) -> Option<Vec<u8>> {
    Some(match name {
        "c17" => c17(),
        "adder4" => adder(4),
        "adder16" => adder(16),
        "parity16" => parity(16),
        "parity32" => parity(32),
        "random8" => random(8, 1),
        "random12" => random(12, 1),
        "random16" => random(16, 1),
        "random32a" => random(32, 1),
        "random32b" => random(32, 2),
        _ => return None,
    })
}
