// Cards of a wanted size and lists of calls for the program `shift`, from a seed. The maker of a list plays it at once
// on a job of its own, so that its calls mostly name faults, tickets and vectors that are there.
use crate::card::{operands_of, Gate, Netlist};
use crate::cases::Random;
use crate::job::Mark;
use crate::shift::Shift;
use std::io::{self, Write};

#[derive(Clone, Copy, PartialEq)]
pub enum Size {
    Small,
    Middle,
    Wide,   // all nets that a card may have, but few inputs
    Full,   // 32 inputs, 224 gates; a sheet of it can take many minutes
    Spare,  // the same, but the gates read the first few inputs alone
    Ladder, // the same, but made so that every search is short
}

impl Size {
    pub fn named(name: &str) -> Self {
        match name {
            "small" => Size::Small,
            "middle" => Size::Middle,
            "wide" => Size::Wide,
            "full" => Size::Full,
            "spare" => Size::Spare,
            "ladder" => Size::Ladder,
            _ => panic!("a size is small, middle, wide, full, spare or ladder"),
        }
    }
}

// Function numbers to draw from: all ten, plain logic, mostly XOR, all with pins.
const STYLES: [&[u8]; 4] = [&[0, 1, 2, 3, 4, 5, 6, 7, 8, 9], &[1, 2, 4, 5, 6], &[3, 7, 3, 1, 6], &[0, 1, 2, 3, 4, 5, 6, 7]];

// Inputs, gates and most outputs.
fn extent(size: Size, random: &mut Random) -> (usize, usize, usize) {
    match size {
        Size::Small => (1 + random.below(6), random.below(15), 1 + random.below(4)),
        Size::Middle => (4 + random.below(9), 10 + random.below(61), 1 + random.below(8)),
        Size::Wide => {
            let inputs = 4 + random.below(5);
            (inputs, 256 - inputs, 1 + random.below(32))
        }
        _ => (32, 224, 1 + random.below(32)),
    }
}

// Nets from the end on, at first perhaps those that no gate reads.
fn outputs(card: &Netlist, most: usize, random: &mut Random) -> Vec<usize> {
    let nets = card.inputs + card.gates.len();
    let mut named: Vec<usize> = vec![];
    if random.one_in(2) {
        let read = |net: usize| card.gates.iter().any(|gate| gate.reads.contains(&net));
        named = (0..nets).rev().filter(|&net| !read(net)).take(most).collect();
    }
    for _ in 0..2 * most {
        let net = nets - 1 - random.below(nets.min(2 * most));
        if named.len() < most && !named.contains(&net) {
            named.push(net);
        }
    }
    named
}

// A net for a pin to read: near the end or anywhere, or, on a woven card, one that is not read yet.
fn read(nets: usize, near: usize, unread: &[usize], random: &mut Random) -> usize {
    match random.below(3) {
        0 => random.below(nets),
        1 if !unread.is_empty() => unread[random.below(unread.len())],
        _ => nets - 1 - random.below(nets.min(near)),
    }
}

// A wide card whose gates keep their inputs, put among the first of 32. The other inputs change no output, and a search
// need not decide them to know that.
fn spare_card(random: &mut Random) -> Netlist {
    let mut card = sized_card(Size::Wide, random);
    let (own, inputs) = (card.inputs, 32);
    let moved = |net: usize| if net < own { net } else { net + inputs - own };
    card.gates.truncate(256 - inputs);
    for gate in &mut card.gates {
        gate.reads = gate.reads.iter().map(|&net| moved(net)).collect();
    }
    card.outputs = card.outputs.iter().map(|&net| moved(net)).filter(|net| (inputs..256).contains(net)).collect();
    if card.outputs.is_empty() {
        card.outputs.push(255);
    }
    card.inputs = inputs;
    card
}

// A few gates of any kind over the last inputs, and above them a ladder that takes the other inputs downwards, one a rung.
// One of the two bits of a rung's input settles all gates of the rung, so a search that has decided the first inputs
// already knows what the outputs show, and turns at once where nothing differs there.
fn ladder_card(random: &mut Random) -> Netlist {
    let (inputs, count) = (32, 224);
    let first = 24 + random.below(5);
    let mut card = Netlist { inputs, gates: vec![], outputs: vec![] };
    for net in inputs..inputs + 8 + random.below(17) {
        let function = random.below(10) as u8;
        let choose = |random: &mut Random| {
            let at = first + random.below(net - first);
            if random.one_in(3) { at } else { net - 1 - random.below(8.min(net - first)) }
        };
        let reads = (0..operands_of(0x30 + function).unwrap()).map(|_| choose(random)).collect();
        card.gates.push(Gate { function, reads });
    }
    let mut rung: Vec<usize> = (inputs + card.gates.len() - 8..inputs + card.gates.len()).collect();
    for input in (0..first).rev() {
        let kinds: [u8; 2] = if random.one_in(2) { [1, 5] } else { [2, 6] };
        let made = card.gates.len();
        let width = (count - made) / (input + 1);
        for i in 0..width {
            let below = if random.one_in(4) { rung[random.below(rung.len())] } else { rung[i % rung.len()] };
            let reads = if random.one_in(2) { vec![input, below] } else { vec![below, input] };
            card.gates.push(Gate { function: kinds[random.below(2)], reads });
        }
        rung = (inputs + made..inputs + made + width).collect();
    }
    let most = 1 + random.below(rung.len());
    for _ in 0..2 * most {
        let net = rung[random.below(rung.len())];
        if card.outputs.len() < most && !card.outputs.contains(&net) {
            card.outputs.push(net);
        }
    }
    card
}

pub fn sized_card(size: Size, random: &mut Random) -> Netlist {
    match size {
        Size::Spare => return spare_card(random),
        Size::Ladder => return ladder_card(random),
        _ => {}
    }
    let (inputs, count, most) = extent(size, random);
    let style = STYLES[random.below(4)];
    let near = 4 + random.below(60);
    let woven = random.one_in(2);
    let mut unread: Vec<usize> = if woven { (0..inputs).collect() } else { vec![] };
    let mut card = Netlist { inputs, gates: vec![], outputs: vec![] };
    for nets in inputs..inputs + count {
        let function = style[random.below(style.len())];
        let reads: Vec<usize> = (0..operands_of(0x30 + function).unwrap()).map(|_| read(nets, near, &unread, random)).collect();
        unread.retain(|net| !reads.contains(net));
        if woven {
            unread.push(nets);
        }
        card.gates.push(Gate { function, reads });
    }
    card.outputs = outputs(&card, most, random);
    card
}

// Lines that are no call, and calls in an unusual dress.
const ODD: &[&str] = &[
    "", " ", "take", "take ", " take 1", "take  1", "take 1 ", "take 1 2", "take +1", "take -1", "take 0x1", "take 1.0", "Take 1",
    "TAKE 1", "take\t1", "take1", "take 18446744073709551616", "take 99999999999999999999999999", "take 1\rtake 2", "take \u{663}",
    "search", "search 1", "search 1 2 3", "search 1 2 backtracking", "search 1 2 Counting", "search 1 2 counting ",
    "search 1 2 counting 3", "search 1  2", "search 0 18446744073709551616", "search 0 18446744073709551616 counting", "close",
    "close x", "close 1 1", "sweep", "sweep one", "sweep 0 0", "add", "add 1", "add 4294967296 0", "add 0 4294967296", "add 1 1 1",
    "add -1 0", "add 1, 1", "merge", "merge 1", "merge 0 1 2", "mark", "mark \u{e9}", "mark 0 0", "vector", "vector 0 0", "counts 1",
    "counts ", "count", "show", "# 0", "no ticket", "take 007", "mark 000000000000000000000000000000", "vector 00", "sweep 000",
    "add 0 0", "add 4294967295 4294967295", "add 0000000000000001 01", "vector 18446744073709551615", "take 18446744073709551615",
    "search 18446744073709551615 0", "close 18446744073709551615", "merge 0 18446744073709551615", "merge 18446744073709551615 0",
    "merge 18446744073709551615 18446744073709551615", "mark 18446744073709551615", "sweep 18446744073709551615",
];

struct Maker<'a> {
    random: &'a mut Random,
    shift: Shift,
    inputs: usize,
    lines: Vec<String>,
}

impl Maker<'_> {
    fn call(&mut self, line: String) {
        self.shift.answer(&line);
        self.lines.push(line);
    }

    // A number below the bound, rarely one that is not.
    fn pick(&mut self, bound: usize) -> usize {
        if bound == 0 || self.random.one_in(25) { bound + self.random.below(2) } else { self.random.below(bound) }
    }

    // A fault whose ticket is held, rarely another one.
    fn held(&mut self) -> u64 {
        let count = self.shift.tickets.len();
        if count == 0 || self.random.one_in(20) {
            return self.pick(self.shift.job.faults()) as u64;
        }
        *self.shift.tickets.iter().nth(self.random.below(count)).unwrap()
    }

    // An open fault if a few tries meet one.
    fn fault(&mut self) -> usize {
        for _ in 0..4 {
            let fault = self.pick(self.shift.job.faults());
            if matches!(self.shift.job.mark(fault as u64), Ok((Mark::Open, false))) {
                return fault;
            }
        }
        self.pick(self.shift.job.faults())
    }

    fn budget(&mut self) -> u64 {
        let settles = if self.inputs <= 12 { (2u64 << self.inputs) - 2 } else { 1500 };
        let most = if self.inputs <= 12 { u64::MAX } else { 4000 };
        [0, 1, 2, 3, self.random.below(40) as u64, self.random.below(400) as u64, settles, settles, settles, most][self.random.below(10)]
    }

    // A search of a held fault, most often one that is still open.
    fn search(&mut self) {
        let solver = if self.random.one_in(3) { " counting" } else { "" };
        let mut fault = self.held();
        for _ in 0..3 {
            if matches!(self.shift.job.mark(fault), Ok((Mark::Open, _))) {
                break;
            }
            fault = self.held();
        }
        let budget = self.budget();
        self.call(format!("search {fault} {budget}{solver}"));
    }

    // Care and value, mostly in form.
    fn add(&mut self) {
        let all = (u64::MAX >> (64 - self.inputs)) as u32;
        let mut care = self.random.next() as u32 & all;
        if self.random.one_in(3) {
            care &= self.random.next() as u32;
        }
        let mut value = self.random.next() as u32 & care;
        match self.random.below(12) {
            0 => value |= self.random.next() as u32,
            1 => care |= 1 << self.random.below(32),
            2 => care = all,
            _ => {}
        }
        self.call(format!("add {care} {value}"));
    }

    // Two vectors, most often two that can be merged, if a few tries meet them.
    fn merge(&mut self) {
        let count = self.shift.job.vectors();
        let mut pair = (self.pick(count), self.pick(count));
        for _ in 0..12 {
            if self.mergeable(pair) {
                break;
            }
            pair = (self.pick(count), self.pick(count));
        }
        self.call(format!("merge {} {}", pair.0, pair.1));
    }

    fn mergeable(&self, pair: (usize, usize)) -> bool {
        match (self.shift.job.vector(pair.0 as u64), self.shift.job.vector(pair.1 as u64)) {
            (Ok((a, _)), Ok((b, _))) => pair.0 != pair.1 && a.bytes().zip(b.bytes()).all(|(x, y)| x == y || x == b'X' || y == b'X'),
            _ => false,
        }
    }

    // The list filled up, and what is refused then.
    fn fill(&mut self) {
        while self.shift.job.vectors() < crate::job::MOST_VECTORS {
            self.add();
        }
        for _ in 0..6 {
            self.add();
            let fault = self.fault();
            self.call(format!("take {fault}"));
            self.search();
        }
    }

    fn any(&mut self) {
        let vectors = self.shift.job.vectors();
        let line = match self.random.below(100) {
            0..=19 => format!("take {}", self.fault()),
            20..=44 => return self.search(),
            45..=56 => format!("close {}", self.held()),
            57..=66 => format!("sweep {}", self.pick(vectors)),
            67..=72 => return self.add(),
            73..=82 => return self.merge(),
            83..=87 => format!("mark {}", self.pick(self.shift.job.faults())),
            88..=91 => format!("vector {}", self.pick(vectors)),
            92..=94 => "counts".to_string(),
            _ => ODD[self.random.below(ODD.len())].to_string(),
        };
        self.call(line)
    }

    // Every vector and every mark, one past the last of each, and the counts.
    fn tell(&mut self) {
        for vector in 0..=self.shift.job.vectors() {
            self.call(format!("vector {vector}"));
        }
        for fault in 0..=self.shift.job.faults() {
            self.call(format!("mark {fault}"));
        }
        self.call("counts".to_string());
    }

    // Every call at the front of the list, once with all odd lines; tickets may be left at its end.
    fn play(&mut self, count: usize) {
        if self.random.one_in(8) {
            ODD.iter().for_each(|line| self.call(line.to_string()));
        }
        let full_at = if self.random.one_in(10) { self.random.below(count.max(1)) } else { count };
        for number in 0..count {
            self.any();
            if number == full_at {
                self.fill();
            }
        }
        self.tell();
    }
}

pub fn calls(card: Netlist, count: usize, random: &mut Random, out: &mut impl Write) -> io::Result<()> {
    let inputs = card.inputs;
    let returns = random.one_in(10); // lines that end in 0D 0A
    let unended = random.one_in(10); // a last line without its end
    let mut maker = Maker { random, shift: Shift::new(card), inputs, lines: vec![] };
    maker.play(count);
    let end = if returns { "\r\n" } else { "\n" };
    let text = maker.lines.join(end);
    out.write_all(text.as_bytes())?;
    out.write_all(if unended { b"" } else { end.as_bytes() })
}
