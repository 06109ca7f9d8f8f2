// The second program checked by itself: the worked cases of the rules, its fast parts against its plain ones,
// and its verdicts against all settings. The first thing that is wrong ends the check.
use crate::calls::{calls, sized_card, Size};
use crate::card::{read, Netlist};
use crate::cases::{formulas, random_card, Random};
use crate::catch::Lines;
use crate::faults::caught;
use crate::formula::{formula, Formula};
use crate::job::{Job, Mark, Solver};
use crate::quick;
use crate::sheet::sheet;
use crate::shift::Shift;
use crate::solve::{answered, problems, told, Problem};
use crate::tried::{sheet_right, shift_right, Tried};

const A: &[u8] = b"\x20\x20\x20\x31\x00\x00\x00\x01\x32\x00\x03\x00\x02\x40\x00\x04\x7f";
const B: &[u8] = b"\x20\x20\x31\x00\x00\x00\x01\x32\x00\x00\x00\x02\x40\x00\x03\x7f";
const C17: &[u8] = b"\x20\x20\x20\x20\x20\x35\x00\x00\x00\x02\x35\x00\x02\x00\x03\x35\x00\x01\x00\x06\
    \x35\x00\x06\x00\x04\x35\x00\x05\x00\x07\x35\x00\x07\x00\x08\x40\x00\x09\x40\x00\x0a\x7f";

const SHEET_OF_B: &str = "faults 12 detected 8 untestable 4 open 0\nvector 0 1X 1\nvector 1 0X 0\nvector 2 01 0\nvector 3 10 1\n\
    fault 2 untestable\nfault 3 untestable\nfault 4 untestable\nfault 8 untestable\n";

fn card(bytes: &[u8]) -> Netlist {
    read(bytes).ok().expect("a card")
}

// So many inputs, then more bytes.
fn inputs(count: usize, more: &[u8]) -> Vec<u8> {
    [vec![0x20; count], more.to_vec()].concat()
}

fn readings() {
    let refused = |bytes: &[u8]| read(bytes).err();
    assert_eq!((Lines::new(card(B)).faults(), Lines::new(card(A)).faults()), (12, 10), "case 1");
    assert_eq!(refused(&B[..15]), Some((2, 15)), "case 2");
    assert_eq!(refused(b"\x20\x31\x00\x00\x00\x01"), Some((5, 1)), "case 3");
    assert_eq!(refused(b"\x7f"), Some((7, 0)), "case 4");
    assert_eq!(Lines::new(card(b"\x20\x40\x00\x00\x7f")).faults(), 2, "case 5");
    assert_eq!(refused(b"\x20\x40\x00\x00\x40\x00\x00\x7f"), Some((6, 4)), "case 5");
    assert_eq!(card(&inputs(32, b"\x40\x00\x00\x7f")).inputs, 32, "case 6");
    assert_eq!(refused(&inputs(33, b"\x40\x00\x00\x7f")), Some((4, 32)), "case 6");
}

fn formula_of_b() {
    let posed = formula(&card(B), 2);
    assert_eq!((posed.variables, posed.leading, posed.clauses.len(), posed.places()), (10, 2, 22, 72), "case 7");
    let clauses: [&[i32]; 22] = [
        &[-3, 1], &[-3, 2], &[3, -1, -2], &[4, -1], &[4, -3], &[-4, 1, 3], &[-9], &[-5, 1], &[5, -1], &[-6, 9], &[6, -9],
        &[-7, 5], &[-7, 6], &[7, -5, -6], &[8, -5], &[8, -7], &[-8, 5, 7],
        &[-10, 4, 8], &[10, -4, 8], &[10, 4, -8], &[-10, -4, -8], &[10],
    ];
    assert_eq!(posed.clauses, clauses, "the formula of card B, fault 2");
}

// A fresh job in which one fault was taken and searched.
fn searched(bytes: &[u8], fault: u64, solver: Solver, budget: u64) -> (Job, Mark, u64) {
    let mut job = Job::new(card(bytes));
    job.take(fault).unwrap();
    let (mark, steps) = job.search(fault, solver, budget).unwrap();
    (job, mark, steps)
}

fn searches() {
    use Solver::{Backtracking, Counting};
    let outcome = |bytes, fault, solver, budget| {
        let (_, mark, steps) = searched(bytes, fault, solver, budget);
        (mark, steps)
    };
    assert_eq!(outcome(B, 2, Backtracking, 1), (Mark::Open, 1), "case 8");
    assert_eq!(outcome(B, 2, Backtracking, 2), (Mark::Untestable, 2), "case 8");
    assert_eq!(outcome(B, 2, Counting, 3), (Mark::Open, 3), "case 8");
    assert_eq!(outcome(B, 2, Counting, 4), (Mark::Untestable, 4), "case 8");
    assert_eq!(outcome(B, 0, Backtracking, 2), (Mark::Open, 2), "case 9");
    let (job, mark, steps) = searched(B, 0, Backtracking, 3);
    assert_eq!((mark, steps, job.vector(0).unwrap().0.as_str()), (Mark::Detected(0), 3, "1X"), "case 9");
    let (job, mark, steps) = searched(A, 7, Backtracking, 1_000_000);
    assert_eq!((mark, steps, job.vector(0).unwrap().0.as_str()), (Mark::Detected(0), 2, "X00"), "case 10");
}

fn vectors() {
    let mut job = Job::new(card(B));
    assert_eq!((job.add(1, 1), job.add(3, 1), job.add(1, 0)), (Ok(0), Ok(1), Ok(2)), "1X, 10, 0X");
    assert_eq!(job.merge(2, 1), Err(18), "case 11");
    assert_eq!(job.merge(0, 1), Ok(()), "case 11");
    assert_eq!(job.vector(0).unwrap().0, "10", "case 11");
    assert_eq!((job.vector(1).unwrap().0.as_str(), job.vector(2).err()), ("0X", Some(15)), "case 11");
    assert_eq!(Job::new(card(b"\x20\x40\x00\x00\x7f")).add(3, 0), Err(16), "case 12");
}

fn sheets() {
    assert_eq!(sheet(B), SHEET_OF_B, "the sheet of card B");
    assert_eq!(sheet(b"\x20\x31\x00\x00\x00\x01"), "card refused 5 at 1\n", "a bad card's sheet");
    let text = sheet(C17);
    assert_eq!(text.lines().next(), Some("faults 34 detected 34 untestable 0 open 0"), "the sheet of c17");
    assert_eq!(text.lines().count(), 12, "the vectors of c17");
    let nine = ["00101", "10100", "01110", "01010", "10011", "01100", "X0010", "01111", "11011"];
    let mut all: Vec<usize> = nine.iter().flat_map(|row| caught(&card(C17), row.as_bytes())).collect();
    all.sort();
    all.dedup();
    assert_eq!(all.len(), 34, "nine vectors of c17");
}

fn as_formula(problem: &Problem) -> Formula {
    let clauses = problem.clauses.iter().map(|clause| clause.iter().map(|&l| l as i32).collect()).collect();
    Formula { variables: problem.variables, leading: problem.leading, clauses }
}

fn quickly(posed: &Formula, counting: bool, budget: u64) -> String {
    let (answer, steps) = if counting { quick::counting(posed, budget) } else { quick::backtracking(posed, budget) };
    told(&answer, steps)
}

fn example() {
    let text = "c leading 6\np cnf 6 7\n1 2 0 2 3 0 -1 -4 5 0 -1 4 6 0 -1 -5 6 0 -1 4 -6 0 -1 -5 -6 0\n";
    let posed = as_formula(&problems(text)[0]);
    assert_eq!(quickly(&posed, false, 1000), "found 5\nv -1 2 -3 -4 -5 -6 0", "the example, backtracking");
    assert_eq!(quickly(&posed, true, 1000), "found 17\nv -1 2 -3 -4 -5 -6 0", "the example, counting");
}

// A tree of exclusive ors: input 0 stuck at 0 takes all settings with 0 there, and then one.
fn parity() {
    for k in 2..=10 {
        let gates = (0..k - 1).flat_map(|g: usize| [0x33, 0, (2 * g) as u8, 0, (2 * g + 1) as u8]);
        let tail = [0x40, 0, (2 * k - 2) as u8, 0x7f];
        let bytes = inputs(k, &gates.chain(tail).collect::<Vec<u8>>());
        let (_, mark, steps) = searched(&bytes, 0, Solver::Backtracking, 1_000_000);
        assert_eq!((mark, steps), (Mark::Detected(0), (1 << k) + k as u64 - 1), "parity of {k}");
    }
}

fn quick_as_plain(random: &mut Random) {
    let mut text = vec![];
    formulas(random.next(), 3000, &mut text).unwrap();
    for problem in problems(std::str::from_utf8(&text).unwrap()) {
        let plain = answered(&problem);
        if !plain.starts_with("refused") {
            assert_eq!(quickly(&as_formula(&problem), problem.counting, problem.budget), plain, "a formula in two ways");
        }
    }
    for _ in 0..60 {
        let netlist = sized_card(Size::Small, random);
        let posed = formula(&netlist, random.below(Lines::new(netlist.clone()).faults()));
        let clauses = posed.clauses.iter().map(|clause| clause.iter().map(|&l| i64::from(l)).collect()).collect();
        let (counting, budget) = (random.one_in(2), [0, 1, 5, 1000][random.below(4)]);
        let problem = Problem { variables: posed.variables, leading: posed.leading, budget, counting, clauses };
        assert_eq!(quickly(&posed, counting, budget), answered(&problem), "the formula of a fault in two ways");
    }
}

fn catch_as_plain(random: &mut Random) {
    for _ in 0..60 {
        let netlist = random_card(random);
        if netlist.inputs + netlist.gates.len() > 60 {
            continue;
        }
        let lines = Lines::new(netlist.clone());
        let row: Vec<u8> = (0..netlist.inputs).map(|_| b"01X"[random.below(3)]).collect();
        let good = lines.good(&row);
        let quickly: Vec<usize> = (0..lines.faults()).filter(|&fault| lines.catches(&good, fault)).collect();
        assert_eq!(quickly, caught(&netlist, &row), "catching in two ways");
    }
}

fn verdicts(random: &mut Random) {
    for size in [Size::Small, Size::Small, Size::Middle].repeat(6) {
        let netlist = sized_card(size, random);
        let tried = Tried::new(&netlist).unwrap();
        sheet_right(&tried, &sheet(&crate::card::write(&netlist))).expect("a sheet");
        let mut text = vec![];
        calls(netlist.clone(), 200, random, &mut text).unwrap();
        let text = String::from_utf8(text).unwrap();
        let mut shift = Shift::new(netlist);
        let mut answers: Vec<String> = text.lines().map(|line| shift.answer(line)).collect();
        answers.push(shift.end());
        shift_right(&tried, &text, &answers.join("\n")).expect("a shift");
    }
}

// The large cards whose sheets are to take seconds: good cards of full size, with outputs that gates make.
fn full_sizes(random: &mut Random) {
    for size in [Size::Spare, Size::Ladder].repeat(20) {
        let netlist = sized_card(size, random);
        let read_back = read(&crate::card::write(&netlist)).expect("a large card");
        assert_eq!((read_back.inputs, read_back.gates.len()), (32, 224), "a large card");
        assert!(read_back.outputs.iter().all(|&net| net >= 32), "an output that is an input");
    }
}

// Trying every setting must notice each of these wrong sheets and answers on card B.
fn wrongs() {
    let tried = Tried::new(&card(B)).unwrap();
    assert_eq!(sheet_right(&tried, SHEET_OF_B), Ok(()));
    for (right, wrong) in [
        ("vector 0 1X 1", "vector 0 XX 1"),
        ("vector 0 1X 1", "vector 0 1X 0"),
        ("vector 2 01 0", "vector 2 0X 0"),
        ("vector 2 01", "vector 1 01"),
        ("fault 2 untestable", "fault 2 open"),
        ("fault 2 untestable", "fault 5 untestable"),
        ("fault 8 untestable\n", ""),
        ("detected 8", "detected 9"),
    ] {
        assert!(sheet_right(&tried, &SHEET_OF_B.replace(right, wrong)).is_err(), "unnoticed: {wrong} for {right}");
    }
    for (calls, answers) in [
        ("take 0\nsearch 0 9", "taken\nnone steps 3\nclosed at end 1"),
        ("take 2\nsearch 2 9", "taken\nfound vector 0 steps 3\nclosed at end 1"),
        ("take 2\nsearch 2 6", "taken\nundecided steps 6\nclosed at end 1"),
        ("add 0 0\nmark 0\nvector 0", "added 0\ndetected 0\nXX X\nclosed at end 0"),
        ("vector 0\nmark 0", "0X 0\ndetected 0 taken\nclosed at end 0"),
        ("mark 0", "untestable\nclosed at end 0"),
        ("vector 0", "1X 0\nclosed at end 0"),
        ("counts", "open 12 detected 0 untestable 0 taken 0"),
    ] {
        assert!(shift_right(&tried, calls, answers).is_err(), "unnoticed: {answers}");
    }
}

// The forms of a line and the answers to it, on card B.
fn lines() {
    let mut shift = Shift::new(card(B));
    for (line, answer) in [
        ("take 0", "taken"), ("take 0", "refused 10"), ("take 12", "refused 9"), ("take 18446744073709551616", "not a call"),
        ("search 0 2", "undecided steps 2"), ("search 1 2", "no ticket"), ("mark 0", "open taken"),
        ("search 000 03", "found vector 0 steps 3"), ("mark 0", "detected 0 taken"), ("search 0 3", "refused 13"),
        ("close 0", "closed"), ("close 0", "no ticket"), ("take 0", "refused 11"), ("sweep 0", "swept 1"), ("vector 0", "1X 1"),
        ("take 2", "taken"), ("search 2 3 counting", "undecided steps 3"), ("search 2 4 counting", "none steps 4"),
        ("search 2 4 backtracking", "not a call"), ("mark 2", "untestable taken"), ("add 3 1", "added 1"), ("merge 0 1", "merged"),
        ("merge 0 0", "refused 17"), ("merge 0 1", "refused 15"), ("vector 0", "10 1"), ("add 1 2", "refused 16"),
        ("add 4294967296 0", "not a call"), ("", "not a call"), ("counts ", "not a call"), ("take  3", "not a call"),
        ("counts", "open 9 detected 2 untestable 1 taken 1"),
    ] {
        assert_eq!(shift.answer(line), answer, "the answer to {line:?}");
    }
    assert_eq!(shift.end(), "closed at end 1");
}

pub fn check() {
    readings();
    formula_of_b();
    searches();
    vectors();
    sheets();
    example();
    parity();
    lines();
    wrongs();
    let mut random = Random(1);
    quick_as_plain(&mut random);
    catch_as_plain(&mut random);
    verdicts(&mut random);
    full_sizes(&mut random);
}
