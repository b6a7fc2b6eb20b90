//! Compares another program's listings with the model's, file by file.
//!
//! The other program is started once. For each file it is sent a 4-byte little-endian length and the file's bytes on
//! its standard input, and it answers on its standard output, before it reads on, with a 4-byte little-endian length
//! and the listing's bytes; the length 0xFFFFFFFF alone says that the file is refused with 8. It ends when its input
//! does.

use crate::coverage::Coverage;
use crate::listing::{listing, ROOM};
use crate::model::events;
use crate::server::{end_progress, progress, Server};
use crate::{generate, Trouble};
use std::io::{Read, Write};

const REFUSED: u32 = u32::MAX;

/// How many records of a file that differs are printed.
const PRINTED: usize = 500;

/// Compares `count` files. The first that differs is written to `keep`; gives whether there was none.
pub fn compare(count: u64, seed: u64, keep: &str, command: &[String]) -> Result<bool, Trouble> {
    let mut server = Server::start(command)?;
    let mut coverage = Coverage::new();
    for ordinal in 0..count {
        let file = generate::file(seed, ordinal);
        let expected = listing(&file, ROOM);
        let got = match send(&mut server.input, &file).and_then(|()| receive(&mut server.output)) {
            Ok(got) => got,
            Err(error) => return Err(server.lost(&format!("file {ordinal} of seed {seed}"), error)),
        };
        if expected.as_ref().map(|listing| &listing.text) != got.as_ref() {
            std::fs::write(keep, &file)?;
            end_progress();
            println!("file {ordinal} of seed {seed} differs; it is kept in {keep}");
            print!("{}", dump(&file));
            print!("{}", first_difference(expected.map(|listing| listing.text).as_deref(), got.as_deref()));
            server.stop()?;
            return Ok(false);
        }
        coverage.count(&file, expected.as_ref());
        progress(ordinal + 1, count, "files");
    }
    server.end()?;
    end_progress();
    print!("{}", coverage.report());
    let of_boards = (0..count).filter(|&ordinal| generate::is_of_a_board(ordinal)).count();
    println!("{count} files, {of_boards} of them of a board, 0 differences");
    Ok(true)
}

/// Answers as such a program, with the model's own listings.
pub fn serve(input: &mut impl Read, output: &mut impl Write) -> std::io::Result<()> {
    loop {
        let mut length = [0; 4];
        if input.read(&mut length[..1])? == 0 {
            return Ok(());
        }
        input.read_exact(&mut length[1..])?;
        let mut file = vec![0; u32::from_le_bytes(length) as usize];
        input.read_exact(&mut file)?;
        match listing(&file, ROOM) {
            None => output.write_all(&REFUSED.to_le_bytes())?,
            Some(listing) => send(output, &listing.text)?,
        }
        output.flush()?;
    }
}

/// Writes a length and the bytes, in one piece.
fn send(output: &mut impl Write, bytes: &[u8]) -> std::io::Result<()> {
    let mut whole = (bytes.len() as u32).to_le_bytes().to_vec();
    whole.extend(bytes);
    output.write_all(&whole)?;
    output.flush()
}

fn receive(input: &mut impl Read) -> std::io::Result<Option<Vec<u8>>> {
    let mut length = [0; 4];
    input.read_exact(&mut length)?;
    match u32::from_le_bytes(length) {
        REFUSED => Ok(None),
        length => {
            // Read by what comes, not by what is announced, so that a wild length can't take the memory.
            let mut bytes = Vec::new();
            input.take(u64::from(length)).read_to_end(&mut bytes)?;
            if bytes.len() < length as usize {
                return Err(std::io::ErrorKind::UnexpectedEof.into());
            }
            Ok(Some(bytes))
        }
    }
}

/// The records in hex, one a line, as far as the framing is right; then the rest.
fn dump(file: &[u8]) -> String {
    let hex = |bytes: &[u8]| bytes.iter().map(|byte| format!("{byte:02x}")).collect::<String>();
    let mut text = String::new();
    let mut rest = file;
    let mut printed = 0;
    while !rest.is_empty() && printed < PRINTED {
        let Ok(record) = events::frame(rest) else { break };
        let (bytes, after) = rest.split_at(record.size());
        text += &format!("{}\n", hex(bytes));
        rest = after;
        printed += 1;
    }
    if rest.len() > 64 {
        text += &format!("{}.. ({} bytes)\n", hex(&rest[..64]), rest.len());
    } else if !rest.is_empty() {
        text += &format!("{}\n", hex(rest));
    }
    text
}

fn first_difference(expected: Option<&[u8]>, got: Option<&[u8]>) -> String {
    let lines = |text: Option<&[u8]>| match text {
        None => vec!["refused with 8".to_string()],
        Some(text) => String::from_utf8_lossy(text).split('\n').map(str::to_string).collect(),
    };
    let (expected, got) = (lines(expected), lines(got));
    let same = expected.iter().zip(&got).take_while(|(a, b)| a == b).count();
    let show = |lines: &[String]| lines.get(same).map_or("nothing".to_string(), |line| format!("{line:?}"));
    format!("line {}: expected {}, got {}\n", same + 1, show(&expected), show(&got))
}

#[cfg(test)]
mod tests {
    use super::*;

    #[test]
    fn files_are_served() {
        let files = [vec![], vec![6], vec![2, 0, 5, 0], vec![0; 65_537]];
        let mut input = Vec::new();
        for file in &files {
            send(&mut input, file).expect("a vector takes all bytes");
        }
        let mut output = Vec::new();
        serve(&mut input.as_slice(), &mut output).expect("whole files");
        let mut answers = output.as_slice();
        for file in &files {
            let got = receive(&mut answers).expect("an answer");
            assert_eq!(got, listing(file, ROOM).map(|listing| listing.text));
        }
        assert!(answers.is_empty());
    }

    #[test]
    fn a_cut_answer_is_no_answer() {
        assert!(receive(&mut [3, 0, 0, 0, b'R'].as_slice()).is_err());
        assert!(receive(&mut [].as_slice()).is_err());
    }

    #[test]
    fn differences_are_shown() {
        let shown = first_difference(Some(b"REV 1\nEND 0\n"), Some(b"REV 1\nEND 1\n"));
        assert_eq!(shown, "line 2: expected \"END 0\", got \"END 1\"\n");
        let shown = first_difference(None, Some(b"REV 1\n"));
        assert_eq!(shown, "line 1: expected \"refused with 8\", got \"REV 1\"\n");
        let shown = first_difference(Some(b"REV 1\n"), Some(b"REV 1"));
        assert_eq!(shown, "line 2: expected \"\", got nothing\n");
    }

    #[test]
    fn records_are_dumped() {
        assert_eq!(dump(&[2, 0, 5, 0, 6, 0, 6, 0, 60, 0, 0, 0, 9]), "02000500\n060006003c000000\n09\n");
    }
}
