// A second program, in plain Rust and with none of the proved code: written from docs/RULES.md alone, to be compared with it.
// It also makes the cases that both are given, from a seed.
mod calls;
mod card;
mod cases;
mod catch;
mod check;
mod clauses;
mod faults;
mod formula;
mod job;
mod jobs;
mod quick;
mod sheet;
mod shift;
mod solve;
mod tried;
mod walk;

use card::{alike, read, write, Netlist};
use cases::{cases, formulas, hex, random_card, rows, Random};
use std::env;
use std::fs;
use std::io::{self, BufRead, Read, Write};

fn unhex(text: &str) -> Option<Vec<u8>> {
    let digits: Option<Vec<u8>> = text.bytes().map(|c| b"0123456789abcdef".iter().position(|&d| d == c).map(|v| v as u8)).collect();
    let digits = digits?;
    if digits.len() % 2 == 1 {
        return None;
    }
    Some(digits.chunks(2).map(|pair| pair[0] * 16 + pair[1]).collect())
}

fn open(text: &str) -> Result<Netlist, String> {
    let bytes = unhex(text).ok_or("no bytes")?;
    read(&bytes).map_err(|(number, offset)| format!("card refused {number} at {offset}"))
}

fn inspected(line: &str) -> Result<String, String> {
    if let Some((first, second)) = line.split_once(' ') {
        let (a, b) = (open(first)?, open(second)?);
        return Ok(if alike(&a, &b) { "alike" } else { "not alike" }.to_string());
    }
    let card = open(line)?;
    let (k, n, m) = (card.inputs, card.inputs + card.gates.len(), card.outputs.len());
    Ok(format!("card {k} inputs {n} nets {m} outputs {}", hex(&write(&card))))
}

// A card's file, and an answer for each line of standard input.
fn by_lines(path: &str, out: &mut impl Write, answer: impl Fn(&Netlist, &str) -> String) -> io::Result<()> {
    let card = match read(&fs::read(path)?) {
        Err((number, offset)) => return writeln!(out, "card refused {number} at {offset}"),
        Ok(card) => card,
    };
    for line in io::stdin().lock().lines() {
        writeln!(out, "{}", answer(&card, &line?))?;
    }
    Ok(())
}

// The same where each line is to be a row of cells.
fn by_rows(path: &str, out: &mut impl Write, answer: impl Fn(&Netlist, &[u8]) -> String) -> io::Result<()> {
    by_lines(path, out, |card, line| {
        let row = line.as_bytes();
        if row.len() == card.inputs && row.iter().all(|c| b"01X".contains(c)) {
            answer(card, row)
        } else {
            format!("not a row of {} cells", card.inputs)
        }
    })
}

fn caught(card: &Netlist, row: &[u8]) -> String {
    let numbers = faults::caught(card, row);
    let list: String = numbers.iter().map(|number| format!(" {number}")).collect();
    format!("caught {} of {}:{list}", numbers.len(), 2 * faults::sites(card).len())
}

const USAGE: &str = "cases SEED COUNT | formulas SEED COUNT | card SEED | rows SEED CARD COUNT | every CARD | inspect | \
    expected CARD | caught CARD | numbers SEED CARD COUNT | clauses CARD | solve";

fn main() -> io::Result<()> {
    let words: Vec<String> = env::args().collect();
    let number = |i: usize| words[i].parse::<u64>().expect("a number");
    let mut out = io::BufWriter::new(io::stdout().lock());
    match words.get(1).map(String::as_str) {
        Some("cases") => cases(number(2), number(3) as usize, &mut out)?,
        Some("formulas") => formulas(number(2), number(3) as usize, &mut out)?,
        Some("card") => out.write_all(&write(&random_card(&mut Random(number(2)))))?,
        Some("rows") => {
            let card = read(&fs::read(&words[3])?).expect("a good card");
            rows(number(2), card.inputs, number(4) as usize, &mut out)?
        }
        Some("every") => {
            let card = read(&fs::read(&words[2])?).expect("a good card");
            cases::every_row(card.inputs, &mut out)?
        }
        Some("inspect") => {
            for line in io::stdin().lock().lines() {
                let text = inspected(&line?).unwrap_or_else(|refusal| refusal);
                writeln!(out, "{text}")?;
            }
        }
        Some("expected") => by_rows(&words[2], &mut out, |card, row| String::from_utf8(walk::shown(card, row)).unwrap())?,
        Some("caught") => by_rows(&words[2], &mut out, caught)?,
        Some("numbers") => {
            let card = read(&fs::read(&words[3])?).expect("a good card");
            clauses::numbers(number(2), &card, number(4) as usize, &mut out)?
        }
        Some("clauses") => by_lines(&words[2], &mut out, clauses::printed)?,
        Some("solve") => {
            let mut text = String::new();
            io::stdin().lock().read_to_string(&mut text)?;
            for problem in solve::problems(&text) {
                writeln!(out, "{}", solve::answered(&problem))?;
            }
        }
        _ => {
            let rest: Vec<&str> = words[1..].iter().map(String::as_str).collect();
            if !jobs::run(&rest, &mut out)? {
                panic!("usage: second {USAGE} | {}", jobs::USAGE);
            }
        }
    }
    out.flush()
}
