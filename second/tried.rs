// Printed verdicts and vectors checked by trying every setting of the inputs with plain bits: no formula, no solver, no X.
// 64 settings stand in a word; input j is bit j of a setting's number.
use crate::card::{Gate, Netlist};
use crate::faults::sites;
use crate::walk::Site;
use std::collections::HashMap;

pub const MOST_INPUTS: usize = 12;

type Settings = Vec<u64>;

pub struct Tried {
    inputs: Vec<Settings>,
    good: Vec<Settings>,         // by output
    differs: Vec<Vec<Settings>>, // by fault and output
}

// The settings in which input j is 1.
fn input(j: usize, k: usize) -> Settings {
    let words = 1 << k.saturating_sub(6);
    let word = |w: usize| (0..64).map(|bit| ((64 * w + bit) >> j & 1) as u64).rev().fold(0, |word, bit| word << 1 | bit);
    (0..words).map(word).collect()
}

fn made(gate: &Gate, a: u64, b: u64) -> u64 {
    match gate.function {
        0 => a,
        1 => a & b,
        2 => a | b,
        3 => a ^ b,
        4 => !a,
        5 => !(a & b),
        6 => !(a | b),
        7 => !(a ^ b),
        8 => 0,
        _ => !0,
    }
}

// What each output shows in each setting, with a line stuck or none.
fn shown(card: &Netlist, inputs: &[Settings], stuck: Option<(Site, bool)>) -> Vec<Settings> {
    let words = inputs[0].len();
    let level = |site: Site| stuck.filter(|&(line, _)| line == site).map(|(_, s)| vec![if s { !0 } else { 0 }; words]);
    let mut nets: Vec<Settings> = vec![];
    for j in 0..card.inputs {
        nets.push(level(Site::Net(j)).unwrap_or_else(|| inputs[j].clone()));
    }
    for gate in &card.gates {
        let net = nets.len();
        let pin = |p: usize| match gate.reads.get(p) {
            None => vec![0; words],
            Some(&read) => level(Site::Pin(net, p)).unwrap_or_else(|| nets[read].clone()),
        };
        let (a, b) = (pin(0), pin(1));
        let value = (0..words).map(|w| made(gate, a[w], b[w])).collect();
        nets.push(level(Site::Net(net)).unwrap_or(value));
    }
    card.outputs.iter().map(|&net| nets[net].clone()).collect()
}

impl Tried {
    // Every setting on the good card and with every fault; none if the card has too many inputs.
    pub fn new(card: &Netlist) -> Option<Self> {
        if card.inputs > MOST_INPUTS {
            return None;
        }
        let inputs: Vec<Settings> = (0..card.inputs).map(|j| input(j, card.inputs)).collect();
        let good = shown(card, &inputs, None);
        let lines = sites(card).into_iter().flat_map(|site| [(site, false), (site, true)]);
        let differs = lines.map(|stuck| {
            let faulty = shown(card, &inputs, Some(stuck));
            good.iter().zip(faulty).map(|(g, f)| g.iter().zip(f).map(|(a, b)| a ^ b).collect()).collect()
        });
        let differs = differs.collect();
        Some(Tried { inputs, good, differs })
    }

    pub fn faults(&self) -> usize {
        self.differs.len()
    }

    // Whether some setting shows the fault.
    pub fn testable(&self, fault: usize) -> bool {
        self.differs[fault].iter().flatten().any(|&word| word != 0)
    }

    // The settings that agree with the fixed cells.
    fn fillings(&self, cells: &str) -> Settings {
        let mut fill = vec![!0; self.inputs[0].len()];
        for (j, sign) in cells.bytes().enumerate() {
            for (word, &ones) in fill.iter_mut().zip(&self.inputs[j]) {
                *word &= match sign {
                    b'1' => ones,
                    b'0' => !ones,
                    _ => !0,
                };
            }
        }
        fill
    }

    // Whether every filling shows the fault, at one and the same output.
    pub fn all_show(&self, cells: &str, fault: usize) -> bool {
        let fill = self.fillings(cells);
        self.differs[fault].iter().any(|differs| fill.iter().zip(differs).all(|(f, d)| f & !d == 0))
    }

    // Cells and outputs are of the right length, and a definite output is what every filling makes.
    fn vector_right(&self, cells: &str, outputs: &str) -> bool {
        let signs = |text: &str, length: usize| text.len() == length && text.bytes().all(|sign| b"01X".contains(&sign));
        if !signs(cells, self.inputs.len()) || !signs(outputs, self.good.len()) {
            return false;
        }
        let fill = self.fillings(cells);
        outputs.bytes().zip(&self.good).all(|(sign, good)| match sign {
            b'0' => fill.iter().zip(good).all(|(f, g)| f & g == 0),
            b'1' => fill.iter().zip(good).all(|(f, g)| f & !g == 0),
            _ => cells.contains('X'),
        })
    }
}

fn must(holds: bool, what: impl Fn() -> String) -> Result<(), String> {
    if holds { Ok(()) } else { Err(what()) }
}

fn whole(word: &str) -> Result<usize, String> {
    word.parse().map_err(|_| format!("not a number: {word}"))
}

// A printed sheet of a good card.
pub fn sheet_right(tried: &Tried, text: &str) -> Result<(), String> {
    let mut vectors: Vec<&str> = vec![];
    let mut undetected: HashMap<usize, &str> = HashMap::new();
    let mut totals = vec![];
    for line in text.lines() {
        match line.split(' ').collect::<Vec<_>>().as_slice() {
            ["faults", f, "detected", d, "untestable", u, "open", o] => totals = vec![whole(f)?, whole(d)?, whole(u)?, whole(o)?],
            ["vector", number, cells, outputs] => {
                must(whole(number)? == vectors.len() && tried.vector_right(cells, outputs), || format!("wrong: {line}"))?;
                vectors.push(cells);
            }
            ["fault", number, mark] => {
                let first = undetected.insert(whole(number)?, mark).is_none();
                must(first && ["untestable", "open"].contains(mark), || format!("wrong: {line}"))?;
            }
            _ => return Err(format!("not a line of a sheet: {line}")),
        }
    }
    for fault in 0..tried.faults() {
        let right = match undetected.get(&fault) {
            None => vectors.iter().any(|cells| tried.all_show(cells, fault)),
            Some(&"untestable") => !tried.testable(fault),
            Some(_) => vectors.len() == crate::job::MOST_VECTORS, // the budget settles every search
        };
        must(right, || format!("fault {fault} is {}", undetected.get(&fault).unwrap_or(&"detected")))?;
    }
    let count = |mark: &str| undetected.values().filter(|&&m| m == mark).count();
    let (f, u, o) = (tried.faults(), count("untestable"), count("open"));
    must(totals == [f, f - u - o, u, o], || "wrong totals".to_string())
}

// What the answers of a shift have told of marks and vectors, since they last could change.
struct Told<'a> {
    tried: &'a Tried,
    marks: HashMap<usize, String>,
    vectors: HashMap<usize, String>,
    pairs: usize, // detected faults checked against their vector
}

impl Told<'_> {
    fn pair(&mut self, fault: usize, vector: usize) -> Result<(), String> {
        if let Some(cells) = self.vectors.get(&vector) {
            self.pairs += 1;
            must(self.tried.all_show(cells, fault), || format!("vector {vector} ({cells}) does not show fault {fault}"))?;
        }
        Ok(())
    }

    fn mark(&mut self, fault: usize, answer: &str) -> Result<(), String> {
        self.marks.insert(fault, answer.to_string());
        match answer.trim_end_matches(" taken").split(' ').collect::<Vec<_>>().as_slice() {
            ["untestable"] => must(!self.tried.testable(fault), || format!("fault {fault} is testable")),
            ["detected", vector] => self.pair(fault, whole(vector)?),
            _ => Ok(()),
        }
    }

    fn vector(&mut self, vector: usize, cells: &str, outputs: &str) -> Result<(), String> {
        must(self.tried.vector_right(cells, outputs), || format!("vector {vector} is not {cells} {outputs}"))?;
        self.vectors.insert(vector, cells.to_string());
        let named = format!("detected {vector}");
        let faults: Vec<usize> = self.marks.iter().filter(|(_, mark)| mark.trim_end_matches(" taken") == named).map(|(&f, _)| f).collect();
        faults.into_iter().try_for_each(|fault| self.pair(fault, vector))
    }

    fn search(&self, fault: usize, budget: u64, answer: &str) -> Result<(), String> {
        let settled = budget >= (2 << self.tried.inputs.len()) - 2;
        let right = match answer.split(' ').next() {
            Some("none") => !self.tried.testable(fault),
            Some("found") => self.tried.testable(fault),
            _ => !settled,
        };
        must(right, || format!("search of fault {fault} with budget {budget}: {answer}"))
    }

    // Once every mark has been told, the counts must be theirs.
    fn counts(&self, answer: &str) -> Result<(), String> {
        if self.marks.len() < self.tried.faults() {
            return Ok(());
        }
        let count = |test: &dyn Fn(&str) -> bool| self.marks.values().filter(|mark| test(mark)).count();
        let begins = |word: &'static str| count(&move |mark| mark.starts_with(word));
        let taken = count(&|mark| mark.ends_with(" taken"));
        let right = format!("open {} detected {} untestable {} taken {taken}", begins("open"), begins("detected"), begins("untestable"));
        must(answer == right, || format!("counts are {right}, not {answer}"))
    }

    fn hear(&mut self, call: &str, answer: &str) -> Result<(), String> {
        let changed = ["taken", "found", "none", "closed", "swept", "merged"].contains(&answer.split(' ').next().unwrap_or(""));
        if changed {
            self.marks.clear();
        }
        if answer == "merged" {
            self.vectors.clear();
        }
        if ["refused", "no", "not"].contains(&answer.split(' ').next().unwrap_or("")) {
            return Ok(());
        }
        match (call.split(' ').collect::<Vec<_>>().as_slice(), answer.split_once(' ')) {
            (["mark", fault], _) => self.mark(whole(fault)?, answer),
            (["vector", vector], Some((cells, outputs))) => self.vector(whole(vector)?, cells, outputs),
            (["search", fault, budget, ..], _) => self.search(whole(fault)?, whole(budget)? as u64, answer),
            (["counts"], _) => self.counts(answer),
            _ => Ok(()),
        }
    }
}

// The answers of a shift on a good card, with the calls that they answer; tells how many detected faults were checked.
pub fn shift_right(tried: &Tried, calls: &str, answers: &str) -> Result<usize, String> {
    let mut told = Told { tried, marks: HashMap::new(), vectors: HashMap::new(), pairs: 0 };
    must(calls.lines().count() + 1 == answers.lines().count(), || "not one answer for each call and one for the end".to_string())?;
    for (number, (call, answer)) in calls.lines().zip(answers.lines()).enumerate() {
        told.hear(call, answer).map_err(|what| format!("call {}: {what}", number + 1))?;
    }
    let last = answers.lines().last().unwrap();
    must(last.starts_with("closed at end "), || format!("the end is {last}"))?;
    Ok(told.pairs)
}
