// Formulas as DIMACS text, and lines of fault numbers to ask for them.
use crate::card::Netlist;
use crate::cases::Random;
use crate::faults::sites;
use crate::formula::formula;
use std::io::{self, Write};

// What is printed for a line with a fault number.
pub fn printed(card: &Netlist, line: &str) -> String {
    let digits = !line.is_empty() && line.bytes().all(|c| c.is_ascii_digit());
    let Some(fault) = line.parse::<u64>().ok().filter(|_| digits) else {
        return "not a fault number".to_string();
    };
    if fault >= 2 * sites(card).len() as u64 {
        return "refused 9".to_string();
    }
    let formula = formula(card, fault as usize);
    let mut text = format!("c leading {}\nc places {}\np cnf {} {}", formula.leading, formula.places(), formula.variables, formula.clauses.len());
    for clause in &formula.clauses {
        let literals: String = clause.iter().map(|literal| format!("{literal} ")).collect();
        text += &format!("\n{literals}0");
    }
    text
}

// Lines for a card: mostly numbers of its faults, some past the last, some that are no numbers.
pub fn numbers(seed: u64, card: &Netlist, count: usize, out: &mut impl Write) -> io::Result<()> {
    let mut random = Random(seed);
    let faults = 2 * sites(card).len();
    for _ in 0..count {
        let number = random.below(faults);
        match random.below(24) {
            0 => writeln!(out, "{}", faults + number)?,
            1 => writeln!(out, "{}{number}", ["+", "-", " ", "0", "x", "1 "][random.below(6)])?,
            2 => writeln!(out, "{}", ["", "18446744073709551616", "0x1", "one"][random.below(4)])?,
            _ => writeln!(out, "{number}")?,
        }
    }
    Ok(())
}
