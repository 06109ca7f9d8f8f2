// Formulas in DIMACS text, closure by the first unit clause, backtracking and counting step for step.
type Clause = Vec<i64>;
type Setting = Vec<Option<bool>>;

pub struct Problem {
    pub variables: usize,
    pub leading: usize,
    pub budget: u64,
    pub counting: bool,
    pub clauses: Vec<Clause>,
}

pub enum Answer {
    Found(Vec<bool>),
    None,
    Undecided,
}

fn value(setting: &Setting, literal: i64) -> Option<bool> {
    setting[literal.unsigned_abs() as usize - 1].map(|bit| bit == (literal > 0))
}

// Closes the setting; false if a clause is violated at the end.
fn close(clauses: &[Clause], setting: &mut Setting) -> bool {
    loop {
        let unit = clauses.iter().find_map(|clause| {
            let open: Vec<i64> = clause.iter().copied().filter(|&l| value(setting, l).is_none()).collect();
            let rest_false = clause.iter().all(|&l| value(setting, l) != Some(true));
            (open.len() == 1 && rest_false).then(|| open[0])
        });
        match unit {
            Some(literal) => setting[literal.unsigned_abs() as usize - 1] = Some(literal > 0),
            None => break,
        }
    }
    !clauses.iter().any(|clause| clause.iter().all(|&l| value(setting, l) == Some(false)))
}

fn reading(setting: &Setting) -> Vec<bool> {
    setting.iter().map(|bit| bit.unwrap()).collect()
}

fn backtracking(problem: &Problem) -> (Answer, u64) {
    let mut steps = 0;
    let mut setting: Setting = vec![None; problem.variables];
    let mut decisions: Vec<(Setting, usize)> = vec![];
    loop {
        let sound = close(&problem.clauses, &mut setting);
        let next = if sound {
            match setting.iter().position(Option::is_none) {
                None => return (Answer::Found(reading(&setting)), steps),
                Some(variable) => (variable, false),
            }
        } else {
            match decisions.last() {
                None => return (Answer::None, steps),
                Some(&(_, variable)) => (variable, true),
            }
        };
        if steps == problem.budget {
            return (Answer::Undecided, steps);
        }
        steps += 1;
        if next.1 {
            setting = decisions.pop().unwrap().0;
        } else {
            decisions.push((setting.clone(), next.0));
        }
        setting[next.0] = Some(next.1);
    }
}

fn counting(problem: &Problem) -> (Answer, u64) {
    let k = problem.leading;
    for number in 0..1u64 << k {
        if number == problem.budget {
            return (Answer::Undecided, number);
        }
        let mut setting: Setting = vec![None; problem.variables];
        for j in 0..k {
            setting[j] = Some(number >> (k - 1 - j) & 1 == 1);
        }
        if close(&problem.clauses, &mut setting) {
            if setting.contains(&None) {
                return (Answer::Undecided, number + 1);
            }
            return (Answer::Found(reading(&setting)), number + 1);
        }
    }
    (Answer::None, 1 << k)
}

// The refusal that start or append would answer first.
fn refusal(problem: &Problem) -> Option<u32> {
    let (v, k) = (problem.variables, problem.leading);
    if !(1..=32).contains(&k) || !(k..=560).contains(&v) {
        return Some(19);
    }
    let mut places = 0;
    for clause in &problem.clauses {
        if clause.iter().any(|&l| l == 0 || l.unsigned_abs() as usize > v) {
            return Some(20);
        }
        places += clause.len() + 1;
        if places > 9216 {
            return Some(21);
        }
    }
    None
}

pub fn answered(problem: &Problem) -> String {
    if let Some(number) = refusal(problem) {
        return format!("refused {number}");
    }
    let (answer, steps) = if problem.counting { counting(problem) } else { backtracking(problem) };
    told(&answer, steps)
}

// An answer with its steps and its reading, in print.
pub fn told(answer: &Answer, steps: u64) -> String {
    match answer {
        Answer::None => format!("none {steps}"),
        Answer::Undecided => format!("undecided {steps}"),
        Answer::Found(bits) => {
            let literals: Vec<String> = bits.iter().zip(1..).map(|(&bit, j)| if bit { j.to_string() } else { format!("-{j}") }).collect();
            format!("found {steps}\nv {} 0", literals.join(" "))
        }
    }
}

// The problems of a text: comment lines set the leading count, budget and solver of the problem that follows.
pub fn problems(text: &str) -> Vec<Problem> {
    let mut all: Vec<Problem> = vec![];
    let (mut leading, mut budget, mut counting) = (None, 1_000_000, false);
    let mut clause = vec![];
    for line in text.lines() {
        let words: Vec<&str> = line.split_whitespace().collect();
        match words.as_slice() {
            ["c", "leading", k] => leading = k.parse().ok(),
            ["c", "budget", b] => budget = b.parse().unwrap(),
            ["c", "solver", name] => counting = *name == "counting",
            ["c", ..] | [] => {}
            ["p", "cnf", v, _] => {
                let variables = v.parse().unwrap();
                all.push(Problem { variables, leading: leading.unwrap_or(variables), budget, counting, clauses: vec![] });
            }
            numbers => {
                for word in numbers {
                    match word.parse::<i64>().unwrap() {
                        0 => all.last_mut().unwrap().clauses.push(std::mem::take(&mut clause)),
                        literal => clause.push(literal),
                    }
                }
            }
        }
    }
    all
}
