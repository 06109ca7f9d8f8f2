// The commands of the second program that have to do with jobs: cases, `shift`, `sheet`, and checks of what they print.
use crate::calls::{calls, sized_card, Size};
use crate::card::{read, write, Netlist};
use crate::cases::{damaged, Random};
use crate::sheet::sheet;
use crate::shift::Shift;
use crate::tried::{sheet_right, shift_right, Tried};
use std::fs;
use std::io::{self, BufRead, Read, Write};

fn good_card(path: &str) -> io::Result<Netlist> {
    Ok(read(&fs::read(path)?).expect("a good card"))
}

fn run_shift(path: &str, out: &mut impl Write) -> io::Result<()> {
    let mut shift = match read(&fs::read(path)?) {
        Err((number, offset)) => return writeln!(out, "card refused {number} at {offset}"),
        Ok(card) => Shift::new(card),
    };
    for line in io::stdin().lock().lines() {
        writeln!(out, "{}", shift.answer(&line?))?;
    }
    writeln!(out, "{}", shift.end())
}

fn run_sheet(out: &mut impl Write) -> io::Result<()> {
    let mut bytes = vec![];
    io::stdin().lock().read_to_end(&mut bytes)?;
    out.write_all(sheet(&bytes).as_bytes())
}

fn verdict(result: Result<String, String>, out: &mut impl Write) -> io::Result<()> {
    match result {
        Ok(text) => writeln!(out, "{text}"),
        Err(what) => {
            writeln!(out, "tried: {what}")?;
            Err(io::Error::other("a verdict or a vector is wrong"))
        }
    }
}

fn tried_sheet(card: &str, text: &str, out: &mut impl Write) -> io::Result<()> {
    let text = fs::read_to_string(text)?;
    let result = match Tried::new(&good_card(card)?) {
        None => Ok("too many inputs to try".to_string()),
        Some(tried) => sheet_right(&tried, &text).map(|()| format!("{} verdicts right", tried.faults())),
    };
    verdict(result, out)
}

fn tried_shift(card: &str, calls: &str, answers: &str, out: &mut impl Write) -> io::Result<()> {
    let (calls, answers) = (fs::read_to_string(calls)?, fs::read_to_string(answers)?);
    let result = match Tried::new(&good_card(card)?) {
        None => Ok("too many inputs to try".to_string()),
        Some(tried) => shift_right(&tried, &calls, &answers).map(|pairs| format!("{pairs} detections right")),
    };
    verdict(result, out)
}

pub const USAGE: &str = "sized SIZE SEED | broken SIZE SEED | calls SEED CARD COUNT | shift CARD | sheet | \
    tried-sheet CARD SHEET | tried-shift CARD CALLS ANSWERS | check";

// Runs a command of this file; false if the words are none.
pub fn run(words: &[&str], out: &mut impl Write) -> io::Result<bool> {
    let seeded = |seed: &str| Random(seed.parse().expect("a number"));
    match words {
        ["sized", size, seed] => out.write_all(&write(&sized_card(Size::named(size), &mut seeded(seed))))?,
        ["broken", size, seed] => {
            let mut random = seeded(seed);
            let bytes = write(&sized_card(Size::named(size), &mut random));
            out.write_all(&damaged(bytes, &mut random))?
        }
        ["calls", seed, card, count] => calls(good_card(card)?, count.parse().expect("a number"), &mut seeded(seed), out)?,
        ["shift", card] => run_shift(card, out)?,
        ["sheet"] => run_sheet(out)?,
        ["tried-sheet", card, text] => tried_sheet(card, text, out)?,
        ["tried-shift", card, calls, answers] => tried_shift(card, calls, answers, out)?,
        ["check"] => {
            crate::check::check();
            writeln!(out, "second program: worked cases, plain and fast ways, verdicts, large cards: as they should be")?
        }
        _ => return Ok(false),
    }
    Ok(true)
}
