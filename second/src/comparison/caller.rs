//! The caller: the C program that makes the library's calls, and its protocol.

use crate::model::call::{Call, Lent, OUT_WORDS, Out};
use crate::model::record::{RECORD_WORDS, VersionRecord};
use crate::model::table::Table;
use std::io::{self, Read, Write};
use std::process::{Child, ChildStdin, ChildStdout, Command, Stdio};

const WORD_BYTES: usize = 8;
const GUARDS_STAND: i64 = 0;

/// Where the parts of an answer begin, in words. The block follows the table.
const GUARDS_AT: usize = 0;
const OUT_AT: usize = 1;
const RECORD_AT: usize = OUT_AT + OUT_WORDS;
const TABLE_AT: usize = RECORD_AT + RECORD_WORDS;

/// Everything that a call left.
#[derive(Clone, PartialEq, Eq, Debug)]
pub struct Left {
    pub guards_stand: bool,
    pub out: Out,
    pub lent: Lent,
    pub block: Vec<u8>,
}

/// The caller at work. It is started again if it has ended.
pub struct Caller {
    command: Vec<String>,
    process: Option<Process>,
}

struct Process {
    child: Child,
    input: ChildStdin,
    output: ChildStdout,
}

impl Caller {
    pub fn new(command: &[String]) -> Caller {
        Caller {
            command: command.to_vec(),
            process: None,
        }
    }

    fn process(&mut self) -> io::Result<&mut Process> {
        if self.process.is_none() {
            let mut child = Command::new(&self.command[0])
                .args(&self.command[1..])
                .stdin(Stdio::piped())
                .stdout(Stdio::piped())
                .spawn()?;
            let input = child.stdin.take().expect("the input is piped");
            let output = child.stdout.take().expect("the output is piped");
            self.process = Some(Process {
                child,
                input,
                output,
            });
        }
        Ok(self.process.as_mut().expect("the process was just started"))
    }

    /// Sends the requests of a batch, none of them more than once.
    pub fn send(&mut self, requests: &[u8]) -> io::Result<()> {
        let words = (requests.len() / WORD_BYTES) as u64;
        let process = self.process()?;
        let sent = process
            .input
            .write_all(&words.to_le_bytes())
            .and_then(|()| process.input.write_all(requests))
            .and_then(|()| process.input.flush());
        self.ended_if(sent)
    }

    /// Receives so many bytes of answers.
    pub fn receive(&mut self, bytes: usize) -> io::Result<Vec<u8>> {
        let mut answers = vec![0; bytes];
        let received = self.process()?.output.read_exact(&mut answers);
        self.ended_if(received)?;
        Ok(answers)
    }

    /// Forgets the process if it failed, so that the next batch has a new one.
    fn ended_if(&mut self, done: io::Result<()>) -> io::Result<()> {
        if done.is_err() {
            self.stop();
        }
        done
    }

    fn stop(&mut self) {
        if let Some(mut process) = self.process.take() {
            drop(process.input);
            drop(process.output);
            // it may have ended by itself, and then there is nothing to end
            let _ = process.child.kill();
            let _ = process.child.wait();
        }
    }
}

impl Drop for Caller {
    fn drop(&mut self) {
        self.stop();
    }
}

fn put_words(buffer: &mut Vec<u8>, words: &[i64]) {
    for word in words {
        buffer.extend_from_slice(&word.to_le_bytes());
    }
}

fn put_padded(buffer: &mut Vec<u8>, bytes: &[u8]) {
    buffer.extend_from_slice(bytes);
    buffer.resize(buffer.len().next_multiple_of(WORD_BYTES), 0);
}

/// Appends the request for a call on what is lent.
pub fn put_request(buffer: &mut Vec<u8>, call: &Call, lent: &Lent) {
    let block = call.lent_block();
    put_words(buffer, &[call.kind().number()]);
    put_words(buffer, &call.numbers());
    put_words(buffer, &lent.record.words);
    put_words(buffer, &[lent.table.words.len() as i64, block.len() as i64]);
    put_words(buffer, &lent.table.words);
    put_padded(buffer, block);
}

/// Appends the answer as the caller gives it.
pub fn put_answer(buffer: &mut Vec<u8>, out: &Out, lent: &Lent, block: &[u8]) {
    put_words(buffer, &[GUARDS_STAND]);
    put_words(buffer, out);
    put_words(buffer, &lent.record.words);
    put_words(buffer, &lent.table.words);
    put_padded(buffer, block);
}

fn word(answer: &[u8], index: usize) -> i64 {
    let bytes = &answer[index * WORD_BYTES..][..WORD_BYTES];
    i64::from_le_bytes(bytes.try_into().expect("a word is eight bytes"))
}

/// The eight words of an answer.
pub fn out_of(answer: &[u8]) -> Out {
    std::array::from_fn(|index| word(answer, OUT_AT + index))
}

/// Parts an answer to a call that was lent a table and a block of these lengths.
pub fn part_answer(answer: &[u8], words: usize, bytes: usize) -> Left {
    let block_at = (TABLE_AT + words) * WORD_BYTES;
    let record = std::array::from_fn(|index| word(answer, RECORD_AT + index));
    let table = (0..words).map(|index| word(answer, TABLE_AT + index));
    Left {
        guards_stand: word(answer, GUARDS_AT) == GUARDS_STAND,
        out: out_of(answer),
        lent: Lent {
            table: Table {
                words: table.collect(),
            },
            record: VersionRecord { words: record },
        },
        block: answer[block_at..][..bytes].to_vec(),
    }
}
