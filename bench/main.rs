// A yardstick for the program `sheet`: the same sheet by the same definition, step for step, in plain fast Rust,
// and the cards on which both are timed. What is read and how a formula looks is taken from the second program.
mod cards;
#[allow(dead_code)]
#[path = "../second/card.rs"]
mod card;
#[allow(dead_code)]
#[path = "../second/faults.rs"]
mod faults;
#[allow(dead_code)]
#[path = "../second/formula.rs"]
mod formula;
mod lines;
mod sheet;
mod solver;
#[allow(dead_code)]
#[path = "../second/walk.rs"]
mod walk;

use std::env;
use std::io::{self, Read, Write};
use std::time::Instant;

// The sheet on standard output; steps, exhausted searches and seconds on standard error.
fn run_sheet() -> io::Result<()> {
    let mut bytes = vec![];
    io::stdin().lock().read_to_end(&mut bytes)?;
    let start = Instant::now();
    let (text, effort) = sheet::sheet(&bytes);
    let seconds = start.elapsed().as_secs_f64();
    io::stdout().lock().write_all(text.as_bytes())?;
    eprintln!("searches {} undecided {} steps {} seconds {seconds:.6}", effort.searches, effort.undecided, effort.steps);
    Ok(())
}

fn main() -> io::Result<()> {
    let words: Vec<String> = env::args().skip(1).collect();
    match words.iter().map(String::as_str).collect::<Vec<_>>().as_slice() {
        ["sheet"] => run_sheet(),
        ["card", name] => io::stdout().lock().write_all(&cards::named(name).expect("the name of a card")),
        ["names"] => {
            println!("{}", cards::NAMES.join("\n"));
            Ok(())
        }
        _ => panic!("usage: bench sheet | card NAME | names"),
    }
}
