//! The comparison of the program `steps` with its model.

use crate::cases::figures;
use crate::cases::random::Random;
use crate::cases::steps_input;
use crate::comparison::shrink;
use crate::model::call::Call;
use crate::model::slot::NOT_REPORTED;
use crate::model::steps;
use std::io::{self, Write};
use std::process::{Command, Stdio};
use std::thread;

/// Input lines are shown no longer than this.
const MOST_SHOWN: usize = 200;

/// Whether a line, with what is printed for it, is one that must be met.
type IsMet = fn(&[u8], &str) -> bool;

/// Lines that must be met, by what they are called.
const MUST_MEET: [(&str, IsMet); 8] = [
    ("P slot", |line, printed| {
        is_put_but_for("P", line) && printed.starts_with("slot")
    }),
    ("P refused 12", |line, printed| {
        is_put_but_for("P", line) && printed == "refused 12"
    }),
    ("I bad line", |line, printed| {
        is_put_but_for("I", line) && printed == steps::BAD_LINE
    }),
    ("U bad line", |line, printed| {
        is_put_but_for("U", line) && printed == steps::BAD_LINE
    }),
    ("P not reported, slot", |line, printed| {
        is_put_of(NOT_REPORTED, line) && printed.starts_with("slot")
    }),
    ("P next below not reported, refused 13", |line, printed| {
        is_put_of(NOT_REPORTED - 1, line) && printed == "refused 13"
    }),
    ("R row, total one not reported", |_, printed| {
        is_row_of(NOT_REPORTED, 0, printed)
    }),
    ("R row, total two not reported", |_, printed| {
        is_row_of(NOT_REPORTED, 1, printed)
    }),
];

/// What was compared and agreed.
#[derive(Default)]
pub struct Found {
    lines: usize,
    met: [usize; MUST_MEET.len()],
}

impl Found {
    /// Counts the lines of an input.
    fn add(&mut self, input: &[u8]) {
        let lines = steps::lines(input);
        self.lines += lines.len();
        for (line, printed) in lines.into_iter().zip(steps::output(input).lines()) {
            self.count(line, printed);
        }
    }

    fn count(&mut self, line: &[u8], printed: &str) {
        for (count, (_, is_met)) in self.met.iter_mut().zip(MUST_MEET) {
            *count += usize::from(is_met(line, printed));
        }
    }

    /// What can be reached and was not.
    pub fn missing(&self) -> Vec<String> {
        let met = self.met.iter().zip(MUST_MEET);
        met.filter(|&(&count, _)| count == 0)
            .map(|(_, (name, _))| format!("steps: {name}"))
            .collect()
    }

    pub fn print(&self) {
        let met = self.met.iter().zip(MUST_MEET);
        let shown: Vec<String> = met
            .map(|(count, (name, _))| format!("{name}: {count}"))
            .collect();
        println!("lines that must be met: {}", shown.join("; "));
        println!("{} lines of the program steps agree", self.lines);
    }
}

/// Whether the line has this letter, and with P in its place would ask for a put.
fn is_put_but_for(letter: &str, line: &[u8]) -> bool {
    line.strip_prefix(letter.as_bytes())
        .is_some_and(|fields| steps::call_of(&[b"P", fields].concat()).is_some())
}

/// Whether the line puts this total.
fn is_put_of(total: i64, line: &[u8]) -> bool {
    match steps::call_of(line) {
        Some(Call::Put { totals, .. }) => totals.contains(&total),
        _ => false,
    }
}

/// Whether this total is printed, at this index, of a row.
fn is_row_of(total: i64, index: usize, printed: &str) -> bool {
    let totals = printed.strip_prefix("row ").map(|row| row.split(' '));
    totals.is_some_and(|mut totals| totals.nth(index) == Some(&total.to_string()))
}

/// Compares so many inputs at random, after some that are given.
pub fn compare(program: &str, random: &mut Random, inputs: usize) -> Result<Found, String> {
    let mut found = Found::default();
    let mut all = vec![Vec::new(), b"\n".to_vec()];
    all.extend(figures::SESSIONS.map(|(input, _)| input.as_bytes().to_vec()));
    all.push(steps_input::long_input(random));
    all.push(steps_input::long_input(random));
    all.extend((0..inputs).map(|_| steps_input::input(random)));
    for input in all {
        if !agrees(program, &input).map_err(|error| format!("{program}: {error}"))? {
            return Err(difference(program, &input));
        }
        found.add(&input);
    }
    Ok(found)
}

/// Whether the program ends well and prints what the model does.
fn agrees(program: &str, input: &[u8]) -> io::Result<bool> {
    Ok(run(program, input)? == Some(steps::output(input).into_bytes()))
}

/// What the program prints, if it ends well.
fn run(program: &str, input: &[u8]) -> io::Result<Option<Vec<u8>>> {
    let mut child = Command::new(program)
        .stdin(Stdio::piped())
        .stdout(Stdio::piped())
        .spawn()?;
    let mut stdin = child.stdin.take().expect("the input is piped");
    let given = input.to_vec();
    let giving = thread::spawn(move || stdin.write_all(&given));
    let output = child.wait_with_output()?;
    let given = giving.join().expect("the writing does not panic").is_ok();
    Ok((given && output.status.success()).then_some(output.stdout))
}

/// The fewest lines found on which the two differ, and both outputs.
fn difference(program: &str, input: &[u8]) -> String {
    let lines: Vec<&[u8]> = input.split(|&byte| byte == b'\n').collect();
    let fewest = shrink::fewest(&lines, |fewer| {
        !fewer.is_empty() && agrees(program, &fewer.join(&b'\n')).is_ok_and(|agree| !agree)
    });
    let input = fewest.join(&b'\n');
    let printed = match run(program, &input) {
        Ok(Some(output)) => shown(&output),
        Ok(None) => "(it did not end well)".to_string(),
        Err(error) => error.to_string(),
    };
    let model = shown(steps::output(&input).as_bytes());
    let input = shown(&input);
    format!("{program} differs on\n{input}\nit prints\n{printed}\nand the model\n{model}")
}

fn shown(text: &[u8]) -> String {
    let lines = text.split_inclusive(|&byte| byte == b'\n');
    let cut = lines.map(|line| match line.get(..MOST_SHOWN) {
        None => format!("    {}", line.escape_ascii()),
        Some(start) => format!("    {} ... of {} bytes", start.escape_ascii(), line.len()),
    });
    cut.collect::<Vec<String>>().join("\n")
}
