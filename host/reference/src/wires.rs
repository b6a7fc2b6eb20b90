//! Compares another program's reader and writer of the Remote operations parameter with the model's, question by question.
//!
//! The other program is started once. For each question it is sent a byte, 0 to read a parameter or 1 to write one; message and cause, a
//! byte each, which are 0 for the writer; a 4-byte length and the bytes of the parameter or the entry; and a 4-byte length and the bytes
//! of the buffer to lend. It answers, before it reads on, with the 4 bytes that the function gave back and the bytes of the buffer after
//! the call. All numbers are little-endian. It ends when its input does.

mod classes;

use crate::generate::wires::{question, Question};
use crate::server::{end_progress, progress, Server};
use crate::wire::entries::{self, Answer};
use crate::wire::words::hex;
use crate::Trouble;
use classes::{Case, Classes};
use std::io::{Read, Write};

/// Compares `count` questions. The first that differs is written to `keep`; gives whether there was none, and every class was reached.
pub fn compare(count: u64, seed: u64, keep: &str, command: &[String]) -> Result<bool, Trouble> {
    let mut server = Server::start(command)?;
    let mut classes = Classes::all();
    for ordinal in 0..count {
        let question = question(seed, ordinal);
        let answer = answer(&question);
        let sent = server.input.write_all(&bytes(&question));
        let got = match sent.and_then(|()| receive(&mut server.output, before(&question).len())) {
            Ok(got) => got,
            Err(error) => {
                let text = format!("question {ordinal} of seed {seed}, {}", shown(&question));
                return Err(server.lost(&text, error));
            }
        };
        if let Err(difference) = judge(&answer, before(&question), &got) {
            let text = format!("{}\n{difference}\n", shown(&question));
            std::fs::write(keep, &text)?;
            end_progress();
            print!("question {ordinal} of seed {seed} differs; it is kept in {keep}\n{text}");
            server.stop()?;
            return Ok(false);
        }
        classes.count(&Case::new(&question, answer));
        progress(ordinal + 1, count, "questions");
    }
    server.end()?;
    end_progress();
    print!("{}", classes.report());
    println!("{count} questions, 0 differences");
    Ok(classes.missing().is_empty())
}

/// The model's answer.
fn answer(question: &Question) -> Answer {
    match question {
        Question::Read { parameter, message, cause, before } => {
            entries::read_parameter(parameter, *message, *cause, before.len())
        }
        Question::Write { entry, before } => entries::write_parameter(entry, before.len()),
    }
}

fn before(question: &Question) -> &[u8] {
    match question {
        Question::Read { before, .. } | Question::Write { before, .. } => before,
    }
}

/// What is sent for a question.
fn bytes(question: &Question) -> Vec<u8> {
    let (head, input) = match question {
        Question::Read { parameter, message, cause, .. } => ([0, *message, *cause], parameter),
        Question::Write { entry, .. } => ([1, 0, 0], entry),
    };
    let with_length = |bytes: &[u8]| [&(bytes.len() as u32).to_le_bytes(), bytes].concat();
    [head.to_vec(), with_length(input), with_length(before(question))].concat()
}

fn shown(question: &Question) -> String {
    match question {
        Question::Read { parameter, message, cause, before } => {
            format!("read {}\nmessage {message}, cause {cause}, lent {}", hex(parameter), hex(before))
        }
        Question::Write { entry, before } => format!("write {}\nlent {}", hex(entry), hex(before)),
    }
}

/// What the other program did.
#[derive(Clone, PartialEq, Eq, Debug)]
struct Got {
    given: u32,
    after: Vec<u8>,
}

fn receive(input: &mut impl Read, room: usize) -> std::io::Result<Got> {
    let mut given = [0; 4];
    input.read_exact(&mut given)?;
    let mut after = vec![0; room];
    input.read_exact(&mut after)?;
    Ok(Got { given: u32::from_le_bytes(given), after })
}

/// Whether the number and every byte of the buffer are the model's. If not, what differs.
fn judge(answer: &Answer, before: &[u8], got: &Got) -> Result<(), String> {
    let written = answer.written();
    let after = [written, &before[written.len()..]].concat();
    let number = |given: u32| format!("{} with {}", given % 256, given / 256);
    if got.given != answer.given() {
        return Err(format!("expected {}, got {}", number(answer.given()), number(got.given)));
    }
    if got.after != after {
        return Err(format!("expected {}\ngot      {}", hex(&after), hex(&got.after)));
    }
    Ok(())
}

#[cfg(test)]
mod tests {
    use super::*;

    #[test]
    fn questions() {
        let read = Question::Read { parameter: vec![0x32, 1, 0x91], message: 5, cause: 16, before: vec![7, 8] };
        assert_eq!(bytes(&read), [0, 5, 16, 3, 0, 0, 0, 0x32, 1, 0x91, 2, 0, 0, 0, 7, 8]);
        let write = Question::Write { entry: vec![1], before: vec![] };
        assert_eq!(bytes(&write), [1, 0, 0, 1, 0, 0, 0, 1, 0, 0, 0, 0]);
    }

    #[test]
    fn answers_are_received() {
        let sent = [8, 1, 0, 0, 7, 8];
        assert_eq!(receive(&mut sent.as_slice(), 2).ok(), Some(Got { given: 264, after: vec![7, 8] }));
        assert!(receive(&mut sent[..5].as_ref(), 2).is_err());
    }

    /// One wrong thing each: the number, the rest, a byte that is written, a byte past it, a byte on a refusal.
    #[test]
    fn answers_are_judged() {
        let got = |given, after: &[u8]| Got { given, after: after.to_vec() };
        let written = Answer::Written(vec![1, 2]);
        assert_eq!(judge(&written, &[7, 8, 9], &got(512, &[1, 2, 9])), Ok(()));
        for wrong in [got(513, &[1, 2, 9]), got(256, &[1, 2, 9]), got(512, &[1, 3, 9]), got(512, &[1, 2, 8])] {
            assert!(judge(&written, &[7, 8, 9], &wrong).is_err(), "{wrong:?}");
        }
        let refused = Answer::Refused { number: 12, rest: 5 };
        assert_eq!(judge(&refused, &[7], &got(12 + 5 * 256, &[7])), Ok(()));
        assert!(judge(&refused, &[7], &got(12 + 4 * 256, &[7])).is_err());
        assert!(judge(&refused, &[7], &got(12 + 5 * 256, &[8])).is_err());
    }
}
