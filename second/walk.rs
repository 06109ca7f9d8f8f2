// The walk: values of nets in 0, 1, X, worked out by trying every choice of bits, with a line stuck or none.
use crate::card::Netlist;

pub fn truth(function: u8, pins: &[bool]) -> bool {
    match (function, pins) {
        (0, [a]) => *a,
        (1, [a, b]) => *a && *b,
        (2, [a, b]) => *a || *b,
        (3, [a, b]) => a != b,
        (4, [a]) => !a,
        (5, [a, b]) => !(*a && *b),
        (6, [a, b]) => !(*a || *b),
        (7, [a, b]) => a == b,
        (8, []) => false,
        (9, []) => true,
        _ => unreachable!(),
    }
}

// A three-valued answer by trying every choice of the bits that the pins allow.
pub fn three_valued(function: u8, pins: &[u8]) -> u8 {
    let (mut low, mut high) = (false, false);
    for choice in 0..1u32 << pins.len() {
        let bits: Vec<bool> = (0..pins.len()).map(|p| choice >> p & 1 == 1).collect();
        let allowed = pins.iter().zip(&bits).all(|(&pin, &bit)| pin == b'X' || (pin == b'1') == bit);
        if allowed {
            if truth(function, &bits) { high = true } else { low = true }
        }
    }
    if low && high { b'X' } else if high { b'1' } else { b'0' }
}

// What sticks: a whole net, or one pin of the gate that makes a net.
#[derive(Clone, Copy, PartialEq)]
pub enum Site {
    Net(usize),
    Pin(usize, usize),
}

// The value of every net, in the characters 0, 1 and X, with a line stuck or none.
pub fn walk(card: &Netlist, row: &[u8], stuck: Option<(Site, u8)>) -> Vec<u8> {
    let held = |site: Site, value: u8| match stuck {
        Some((line, level)) if line == site => level,
        _ => value,
    };
    let mut nets: Vec<u8> = row.iter().enumerate().map(|(j, &cell)| held(Site::Net(j), cell)).collect();
    for gate in &card.gates {
        let made = nets.len();
        let pins: Vec<u8> = gate.reads.iter().enumerate().map(|(p, &net)| held(Site::Pin(made, p), nets[net])).collect();
        nets.push(held(Site::Net(made), three_valued(gate.function, &pins)));
    }
    nets
}

pub fn outputs(card: &Netlist, nets: &[u8]) -> Vec<u8> {
    card.outputs.iter().map(|&net| nets[net]).collect()
}

// What the outputs of the good card show.
pub fn shown(card: &Netlist, row: &[u8]) -> Vec<u8> {
    outputs(card, &walk(card, row, None))
}
