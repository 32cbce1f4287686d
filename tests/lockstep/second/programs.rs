//! The two proved programs that read lines and write lines: what each must write, and whether it does on random lines.

use crate::cases::Bench;
use crate::process::written_by;
use crate::text::lines;
use crate::{draw_cases, draw_vectors, vectors};

/// What must be written for one line, and the number of the answer in it, if it has one.
pub struct Account {
    pub text: String,
    pub answer: Option<u8>,
}

#[derive(Clone, Copy)]
pub enum Program {
    Cases,
    Vectors,
}

impl Program {
    pub fn named(name: &str) -> Option<Program> {
        match name {
            "cases" => Some(Program::Cases),
            "vectors" => Some(Program::Vectors),
            _ => None,
        }
    }

    /// What it must write, line by line of its input.
    fn accounts(self, input: &str) -> Vec<Account> {
        match self {
            Program::Cases => {
                let mut bench = Bench::new();
                lines(input).map(|line| bench.play(line)).collect()
            }
            Program::Vectors => lines(input).map(vectors::account).collect(),
        }
    }

    pub fn must_write(self, input: &str) -> String {
        self.accounts(input).iter().map(|account| &account.text[..]).collect()
    }

    /// Random lines, as many as one run reads. The same seed and number give the same lines.
    pub fn draw(self, seed: u64, number: u64) -> String {
        match self {
            Program::Cases => draw_cases::portion(seed, number),
            Program::Vectors => draw_vectors::portion(seed, number),
        }
    }

    /// The answers that it can give.
    fn answers(self) -> &'static [u8] {
        match self {
            Program::Cases => &[0, 1, 2, 3, 4, 5, 6, 7, 8, 12],
            Program::Vectors => &[0, 3, 12],
        }
    }
}

/// How many lines there were, and how many of each answer.
#[derive(Default)]
struct Count {
    lines: usize,
    answers: [usize; 13],
}

impl Count {
    fn add(&mut self, accounts: &[Account]) {
        self.lines += accounts.len();
        for answer in accounts.iter().filter_map(|account| account.answer) {
            self.answers[answer as usize] += 1;
        }
    }

    fn of_answer(&self, answer: u8) -> usize {
        self.answers[answer as usize]
    }
}

/// Runs a command, which is the program, on so many portions of a seed. Says how many lines it wrote as it must, or where it did
/// not. A run in which an answer never came has tested less than it says, and fails too.
pub fn compare(program: Program, seed: u64, portions: u64, command: &[&str]) -> Result<String, String> {
    let mut count = Count::default();
    for number in 0..portions {
        let input = program.draw(seed, number);
        let accounts = program.accounts(&input);
        let told = |what: String| format!("DIFFERENCE: seed {seed}, portion {number}\n{what}");
        let written = written_by(command, input.as_bytes()).map_err(told)?;
        hold(&input, &accounts, &String::from_utf8_lossy(&written)).map_err(told)?;
        count.add(&accounts);
    }
    if let Some(never) = program.answers().iter().find(|&&answer| count.of_answer(answer) == 0) {
        return Err(format!("MISSING: in {portions} portions of seed {seed} the answer {never} never came"));
    }
    let answers: Vec<String> =
        program.answers().iter().map(|&answer| format!("{} of {answer}", count.of_answer(answer))).collect();
    let portions = format!("{portions} portions of seed {seed}");
    Ok(format!("{} lines in {portions}, all alike; answers: {}", count.lines, answers.join(", ")))
}

/// Takes the accounts off what was written, one after the other.
fn hold(input: &str, accounts: &[Account], written: &str) -> Result<(), String> {
    let mut rest = written;
    for (line, account) in lines(input).zip(accounts) {
        rest = rest.strip_prefix(&account.text[..]).ok_or_else(|| difference(line, &account.text, rest))?;
    }
    match lines(rest).next() {
        None => Ok(()),
        Some(more) => Err(format!("more was written than there are lines: {more}")),
    }
}

/// The first line of an account that was not written, and what was written in its place.
fn difference(line: &str, account: &str, written: &str) -> String {
    let told = lines(written).map(Some).chain(std::iter::repeat(None));
    let (second, first) = lines(account).zip(told).find(|(second, first)| Some(*second) != *first).unwrap_or(("", None));
    let beginning: String = line.chars().take(300).collect();
    format!("of     {beginning}\nsecond {second}\nproved {}", first.unwrap_or("nothing"))
}
