//! Input for the program `steps`: sessions of good and bad lines.

use crate::cases::edges;
use crate::cases::random::Random;

const FEW_WORDS: i64 = 3;
const MOST_LINES: usize = 600;
const LONG_LINE_BYTES: usize = 3_000_000;
const NO_LAST_NEWLINE_PERCENT: usize = 50;
const BEGIN_PERCENT: usize = 30;

/// Numbers at the edges of what a line may have; some make a bad line.
const NUMBERS: [&str; 25] = [
    "0",
    "-0",
    "00",
    "-00",
    "007",
    "-007",
    "+1",
    "-",
    "",
    "--1",
    "1-",
    "1000000000000000",
    "1000000000000001",
    "-1000000000000000",
    "-1000000000000001",
    "-1000000000000002",
    "9223372036854775806",
    "9223372036854775807",
    "9223372036854775808",
    "-9223372036854775807",
    "-9223372036854775808",
    "-9223372036854775809",
    "9999999999999999999",
    "0000000000000000001",
    "00000000000000000001",
];

/// Letters in whose place P came: their lines are bad, whatever follows.
const LETTERS_OF_OLD: [&str; 2] = ["I", "U"];

const BAD_LINES: [&[u8]; 24] = [
    b"",
    b" ",
    b"B ",
    b" B",
    b"b",
    b"BB",
    b"B 1",
    b"C\r",
    b"C\t",
    b"\tC",
    b"D 1",
    b"D 1 1 1",
    b"D  1 1",
    b"D 1 1 ",
    b"R 1 1",
    b"P 1 1 1",
    b"P 1 1 1 1 1",
    b"P 1\t1 1 1",
    b"p 1 1 1 1",
    b"S 8",
    b"\0",
    b"B\0",
    b"D 1 \xff",
    b"D 1 0x1",
];

/// An input of many lines. Its last line may have no newline.
pub fn input(random: &mut Random) -> Vec<u8> {
    let mut input = Vec::new();
    let mut session = Session {
        current: 1,
        run_active: false,
    };
    for _ in 0..random.below(MOST_LINES) {
        input.extend(session.line(random));
        input.push(b'\n');
    }
    if random.percent(NO_LAST_NEWLINE_PERCENT) {
        input.pop();
    }
    input
}

/// An input with one very long line among others.
pub fn long_input(random: &mut Random) -> Vec<u8> {
    let mut input = b"B\nP 1 1 5 0\n".to_vec();
    let unit = random.pick(&[&b"0"[..], b" 1", b" ", b"1", b"\0", b"P 1 1 1 1 "]);
    input.extend_from_slice(b"R 1");
    input.extend(unit.iter().cycle().take(1 + random.below(LONG_LINE_BYTES)));
    input.extend_from_slice(b"\nP 1 1 6 0\nC\nR 2 1 1");
    input
}

/// A session as it is written. What it knows of the version is a guess, since a
/// line that was spoilt may be a good one.
struct Session {
    current: i64,
    run_active: bool,
}

impl Session {
    fn line(&mut self, random: &mut Random) -> Vec<u8> {
        match random.below(24) {
            0 => random.pick(&BAD_LINES).to_vec(),
            1 => spoilt(self.row_line(random), random),
            2 => (0..random.below(12)).map(|_| any_byte(random)).collect(),
            3 => self.turn().into_bytes(),
            4 => random.pick(&["B", "C"]).as_bytes().to_vec(),
            5 => put_line(random.pick(&LETTERS_OF_OLD), random).into_bytes(),
            _ if !self.run_active && random.percent(BEGIN_PERCENT) => self.turn().into_bytes(),
            _ => self.row_line(random).into_bytes(),
        }
    }

    /// Begins a run, or commits the one that is active.
    fn turn(&mut self) -> String {
        self.current += i64::from(self.run_active);
        self.run_active = !self.run_active;
        if self.run_active { "B" } else { "C" }.to_string()
    }

    fn row_line(&self, random: &mut Random) -> String {
        match random.below(14) {
            0..=6 => put_line("P", random),
            7..=9 => format!("D {}", key(random)),
            10 => format!("R {} {}", number(random), key(random)),
            _ => {
                let session = self.current - random.between(-1, 2);
                format!("R {session} {}", key(random))
            }
        }
    }
}

/// A letter before the fields of a put.
fn put_line(letter: &str, random: &mut Random) -> String {
    format!("{letter} {} {}", key(random), totals(random))
}

/// A byte that is no newline.
fn any_byte(random: &mut Random) -> u8 {
    let byte = random.word() as u8;
    if byte == b'\n' { b' ' } else { byte }
}

/// The line with one byte altered, put in or taken out.
fn spoilt(line: String, random: &mut Random) -> Vec<u8> {
    let mut line = line.into_bytes();
    let place = random.below(line.len());
    let byte = random.pick(b" \t\r-+0123456789BCDIPRU\0\xa0");
    match random.below(3) {
        0 => line[place] = byte,
        1 => line.insert(place, byte),
        _ => {
            line.remove(place);
        }
    }
    line
}

fn key(random: &mut Random) -> String {
    let one = random.between(0, FEW_WORDS);
    let two = random.between(0, FEW_WORDS);
    match random.below(20) {
        0 => format!("{} {two}", number(random)),
        1 => format!("{one} {}", number(random)),
        _ => format!("{one} {two}"),
    }
}

fn totals(random: &mut Random) -> String {
    match random.below(8) {
        0 => format!("{} {}", number(random), edges::total(random)),
        1 => format!("{} {}", edges::total(random), number(random)),
        _ => format!("{} {}", edges::total(random), edges::total(random)),
    }
}

fn number(random: &mut Random) -> String {
    match random.below(3) {
        0 => edges::word(random).to_string(),
        1 => format!("{:020}", random.word()),
        _ => random.pick(&NUMBERS).to_string(),
    }
}
