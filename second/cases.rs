// Cases from a seed: good cards, damaged ones, pairs, rows of cells, formulas.
use crate::card::{operands_of, write, Gate, Netlist};
use std::io::{self, Write};

pub struct Random(pub u64);

impl Random {
    pub fn next(&mut self) -> u64 {
        self.0 = self.0.wrapping_add(0x9e37_79b9_7f4a_7c15);
        let mut z = self.0;
        z = (z ^ z >> 30).wrapping_mul(0xbf58_476d_1ce4_e5b9);
        z = (z ^ z >> 27).wrapping_mul(0x94d0_49bb_1331_11eb);
        z ^ z >> 31
    }

    pub fn below(&mut self, bound: usize) -> usize {
        (self.next() % bound as u64) as usize
    }

    pub fn one_in(&mut self, chances: usize) -> bool {
        self.below(chances) == 0
    }
}

pub fn random_card(random: &mut Random) -> Netlist {
    let large = random.one_in(12);
    let inputs = if random.one_in(15) { 32 } else { 1 + random.below(8) };
    let most = if large { 256 - inputs } else { 14 };
    let count = if random.one_in(40) { 256 - inputs } else { random.below(most + 1) };
    let mut card = Netlist { inputs, gates: vec![], outputs: vec![] };
    for made in 0..count {
        let function = random.below(10) as u8;
        let pins = operands_of(0x30 + function).unwrap();
        let reads = (0..pins).map(|_| random.below(inputs + made)).collect();
        card.gates.push(Gate { function, reads });
    }
    let nets = inputs + count;
    let wanted = if random.one_in(15) { 32 } else { 1 + random.below(4) };
    for _ in 0..wanted * 2 {
        let net = nets - 1 - random.below(nets.min(40));
        if card.outputs.len() < wanted && !card.outputs.contains(&net) {
            card.outputs.push(net);
        }
    }
    card
}

// The commands of a card in another order that the rules allow: outputs as soon as their net stands.
pub fn mixed(card: &Netlist, random: &mut Random) -> Vec<u8> {
    let plain = write(card);
    if random.one_in(2) {
        return plain;
    }
    let mut bytes = vec![];
    let mut named = 0;
    let mut at = 0;
    for net in 0..card.inputs + card.gates.len() {
        let count = operands_of(plain[at]).unwrap();
        bytes.extend(&plain[at..at + 1 + 2 * count]);
        at += 1 + 2 * count;
        while named < card.outputs.len() && card.outputs[named] <= net && random.one_in(2) {
            bytes.push(0x40);
            bytes.extend((card.outputs[named] as u16).to_be_bytes());
            named += 1;
        }
    }
    for &net in &card.outputs[named..] {
        bytes.push(0x40);
        bytes.extend((net as u16).to_be_bytes());
    }
    bytes.push(0x7f);
    bytes
}

pub fn damaged(mut bytes: Vec<u8>, random: &mut Random) -> Vec<u8> {
    let commands = [0x20, 0x30, 0x31, 0x35, 0x38, 0x39, 0x3a, 0x2f, 0x40, 0x7f, 0x00, 0xff, 0x01];
    for _ in 0..1 + random.below(2) {
        let at = random.below(bytes.len().max(1));
        match random.below(7) {
            0 => bytes.truncate(at),
            1 if at < bytes.len() => bytes[at] = commands[random.below(commands.len())],
            2 if at < bytes.len() => bytes[at] = random.next() as u8,
            3 if at < bytes.len() => {
                bytes.remove(at);
            }
            4 => bytes.insert(at, commands[random.below(commands.len())]),
            5 => bytes.push(commands[random.below(commands.len())]),
            _ => {
                let again: Vec<u8> = bytes[at..bytes.len().min(at + 3)].to_vec();
                bytes.splice(at..at, again);
            }
        }
    }
    bytes
}

pub fn swapped(card: &Netlist, random: &mut Random) -> Netlist {
    let mut other = card.clone();
    for gate in &mut other.gates {
        if random.one_in(2) {
            gate.reads.reverse();
        }
        if random.one_in(60) {
            gate.function = [1, 2, 3, 5, 6, 7][random.below(6)] * (gate.reads.len() == 2) as u8 + gate.function * (gate.reads.len() != 2) as u8;
        }
        if random.one_in(60) && gate.reads.len() == 2 {
            gate.reads[0] = gate.reads[1];
        }
    }
    if random.one_in(8) {
        other.outputs.reverse();
    }
    other
}

pub fn hex(bytes: &[u8]) -> String {
    bytes.iter().map(|byte| format!("{byte:02x}")).collect()
}

// Cards at the edges of every limit, one at it and one past it.
pub fn edges(out: &mut impl Write) -> io::Result<()> {
    let ends = |inputs: usize, zeros: usize, outputs: &[usize]| {
        let mut bytes = vec![0x20; inputs];
        bytes.extend(vec![0x38; zeros]);
        for net in outputs {
            bytes.push(0x40);
            bytes.extend((*net as u16).to_be_bytes());
        }
        bytes.push(0x7f);
        bytes
    };
    let all: Vec<usize> = (0..33).collect();
    for bytes in [
        ends(32, 0, &[0]),
        ends(33, 0, &[0]),
        ends(1, 255, &[255]),
        ends(1, 256, &[255]),
        ends(32, 224, &[255]),
        ends(32, 225, &[255]),
        ends(32, 8, &all[..32]),
        ends(32, 8, &all),
        ends(2, 0, &[0, 1, 0]),
        ends(2, 0, &[2]),
        ends(2, 3, &[5]),
        ends(0, 1, &[0]),
        ends(1, 0, &[]),
        ends(1, 0, &[256]),
        vec![],
        vec![0x20],
        vec![0x7f, 0x7f],
    ] {
        writeln!(out, "{}", hex(&bytes))?;
    }
    Ok(())
}

pub fn cases(seed: u64, count: usize, out: &mut impl Write) -> io::Result<()> {
    let mut random = Random(seed);
    edges(out)?;
    for _ in 0..count {
        let card = random_card(&mut random);
        let bytes = mixed(&card, &mut random);
        match random.below(5) {
            0 | 1 => writeln!(out, "{}", hex(&bytes))?,
            2 | 3 => writeln!(out, "{}", hex(&damaged(bytes, &mut random)))?,
            _ => writeln!(out, "{} {}", hex(&bytes), hex(&write(&swapped(&card, &mut random))))?,
        }
    }
    Ok(())
}

pub fn rows(seed: u64, inputs: usize, count: usize, out: &mut impl Write) -> io::Result<()> {
    let mut random = Random(seed);
    for _ in 0..count {
        let free = random.below(4);
        let mut row: Vec<u8> = (0..inputs).map(|_| if random.below(4) < free { b'X' } else { b"01"[random.below(2)] }).collect();
        if random.one_in(20) {
            row.push(b'0');
        }
        if random.one_in(20) {
            let at = random.below(row.len());
            row[at] = b"x2 -"[random.below(4)];
        }
        out.write_all(&row)?;
        writeln!(out)?;
    }
    Ok(())
}

// Every row of cells, for a card of few inputs.
pub fn every_row(inputs: usize, out: &mut impl Write) -> io::Result<()> {
    for number in 0..3usize.pow(inputs as u32) {
        let row: Vec<u8> = (0..inputs).map(|j| b"01X"[number / 3usize.pow(j as u32) % 3]).collect();
        out.write_all(&row)?;
        writeln!(out)?;
    }
    Ok(())
}

// Formulas in DIMACS text, each with its leading count, budget and solver in comment lines.
pub fn formulas(seed: u64, count: usize, out: &mut impl Write) -> io::Result<()> {
    let mut random = Random(seed);
    for _ in 0..count {
        let variables = 1 + random.below(9);
        let leading = 1 + random.below(variables);
        let clauses = random.below(4 * variables + 2);
        let budget = [0, 1, 2, 3, random.below(40), 100_000][random.below(6)];
        let solver = ["backtracking", "counting"][random.below(2)];
        writeln!(out, "c leading {leading}\nc budget {budget}\nc solver {solver}\np cnf {variables} {clauses}")?;
        for _ in 0..clauses {
            let length = if random.one_in(30) { 0 } else { 1 + random.below(3) };
            for _ in 0..length {
                let sign = if random.one_in(2) { "-" } else { "" };
                let beyond = if random.one_in(400) { variables } else { 0 };
                write!(out, "{sign}{} ", 1 + random.below(variables) + beyond)?;
            }
            writeln!(out, "0")?;
        }
    }
    Ok(())
}
