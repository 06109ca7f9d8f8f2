// Cards: reading with its refusals, canonical writing, alike.

#[derive(Clone, PartialEq)]
pub struct Gate {
    pub function: u8,
    pub reads: Vec<usize>,
}

#[derive(Clone)]
pub struct Netlist {
    pub inputs: usize,
    pub gates: Vec<Gate>,
    pub outputs: Vec<usize>,
}

pub fn operands_of(byte: u8) -> Option<usize> {
    Some(match byte {
        0x20 | 0x7f | 0x38 | 0x39 => 0,
        0x40 | 0x30 | 0x34 => 1,
        0x31 | 0x32 | 0x33 | 0x35 | 0x36 | 0x37 => 2,
        _ => return None,
    })
}

pub fn read(bytes: &[u8]) -> Result<Netlist, (u8, usize)> {
    let mut card = Netlist { inputs: 0, gates: vec![], outputs: vec![] };
    let mut at = 0;
    while at < bytes.len() {
        let byte = bytes[at];
        let count = operands_of(byte).ok_or((1, at))?;
        if bytes.len() - at - 1 < 2 * count {
            return Err((2, at));
        }
        let nets = card.inputs + card.gates.len();
        let operands: Vec<usize> = (0..count)
            .map(|p| usize::from(bytes[at + 1 + 2 * p]) << 8 | usize::from(bytes[at + 2 + 2 * p]))
            .collect();
        let undeclared = operands.iter().any(|&o| o >= nets);
        match byte {
            0x20 if !card.gates.is_empty() => return Err((3, at)),
            0x20 if card.inputs == 32 => return Err((4, at)),
            0x20 => card.inputs += 1,
            0x40 if card.outputs.len() == 32 => return Err((4, at)),
            0x40 if undeclared => return Err((5, at)),
            0x40 if card.outputs.contains(&operands[0]) => return Err((6, at)),
            0x40 => card.outputs.push(operands[0]),
            0x7f if card.inputs == 0 || card.outputs.is_empty() => return Err((7, at)),
            0x7f if at + 1 < bytes.len() => return Err((8, at + 1)),
            0x7f => return Ok(card),
            _ if nets == 256 => return Err((4, at)),
            _ if undeclared => return Err((5, at)),
            _ => card.gates.push(Gate { function: byte - 0x30, reads: operands }),
        }
        at += 1 + 2 * count;
    }
    Err((2, bytes.len()))
}

pub fn write(card: &Netlist) -> Vec<u8> {
    let mut bytes = vec![0x20; card.inputs];
    for gate in &card.gates {
        bytes.push(0x30 + gate.function);
        for &net in &gate.reads {
            bytes.extend((net as u16).to_be_bytes());
        }
    }
    for &net in &card.outputs {
        bytes.push(0x40);
        bytes.extend((net as u16).to_be_bytes());
    }
    bytes.push(0x7f);
    bytes
}

pub fn alike(a: &Netlist, b: &Netlist) -> bool {
    let sorted = |gate: &Gate| {
        let mut reads = gate.reads.clone();
        reads.sort();
        (gate.function, reads)
    };
    a.inputs == b.inputs && a.outputs == b.outputs && a.gates.iter().map(sorted).eq(b.gates.iter().map(sorted))
}
