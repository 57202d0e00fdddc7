//! The model of the program `steps`: what it prints for what it reads.

use crate::model::call::{Answer, Call, Lent};
use crate::model::outcome::make_call;
use crate::model::slot::Key;

const SLOTS: usize = 8;
const MOST_DIGITS: usize = 19;
pub const BAD_LINE: &str = "bad line";

/// The lines of an input. A last line needs no newline.
pub fn lines(input: &[u8]) -> Vec<&[u8]> {
    let mut lines: Vec<&[u8]> = input.split(|&byte| byte == b'\n').collect();
    if lines.last().is_some_and(|last| last.is_empty()) {
        lines.pop();
    }
    lines
}

/// What the program prints for the input.
pub fn output(input: &[u8]) -> String {
    let mut lent = Lent::fresh(SLOTS);
    lines(input)
        .into_iter()
        .map(|line| answer_line(line, &mut lent) + "\n")
        .collect()
}

fn answer_line(line: &[u8], lent: &mut Lent) -> String {
    let Some(call) = call_of(line) else {
        return BAD_LINE.to_string();
    };
    match make_call(&call, lent) {
        Err(refusal) => format!("refused {}", refusal.number()),
        Ok(Answer::Version(version)) => format!("version {version}"),
        Ok(Answer::Slot(place)) => format!("slot {place}"),
        Ok(Answer::Row(Some(row))) => format!("row {} {}", row.totals[0], row.totals[1]),
        Ok(_) => "none".to_string(),
    }
}

/// The call that a line asks for, if it is not a bad line.
pub fn call_of(line: &[u8]) -> Option<Call> {
    let mut fields = line.split(|&byte| byte == b' ');
    let letter = fields.next()?;
    let numbers: Vec<i64> = fields.map(number).collect::<Option<_>>()?;
    match (letter, numbers.as_slice()) {
        (b"B", []) => Some(Call::Begin),
        (b"C", []) => Some(Call::Commit),
        (b"P", &[one, two, first, second]) => Some(Call::Put {
            key: Key { one, two },
            totals: [first, second],
        }),
        (b"D", &[one, two]) => Some(Call::Delete {
            key: Key { one, two },
        }),
        (b"R", &[session, one, two]) => Some(Call::ReadKey {
            session,
            key: Key { one, two },
        }),
        _ => None,
    }
}

/// An optional minus and 1 to 19 digits, within signed 64 bits.
fn number(field: &[u8]) -> Option<i64> {
    let digits = field.strip_prefix(b"-").unwrap_or(field);
    let right = (1..=MOST_DIGITS).contains(&digits.len()) && digits.iter().all(u8::is_ascii_digit);
    if !right {
        return None;
    }
    str::from_utf8(field).ok()?.parse().ok()
}
