//! A second model of the reverse charging rules, written apart from the program, and a comparison with it.

mod coverage;
mod differential;
mod generate;
mod listing;
mod model;
mod server;
mod table;
mod tally;
mod undump;
mod wire;
mod wires;
mod write;
mod writes;

use std::io::{Read, Write};
use std::process::ExitCode;

const USAGE: &str = "usage:
  reference listing < FILE                       the listing of an event file
  reference serve                                listings of many files (see differential)
  reference differential --count N --seed S [--keep PATH] -- COMMAND ARGS..
                                                 compares COMMAND's listings of N files with the model's
  reference writes --count N --seed S [--keep PATH] -- COMMAND ARGS..
                                                 compares what COMMAND writes of N events with the model's
  reference wires --count N --seed S [--keep PATH] -- COMMAND ARGS..
                                                 compares how COMMAND reads and writes N parameters with the model
  reference wire C|P OCTETS.. | W ROOM WORDS..   the answer to a component or a parameter, as tests/wire.txt has them
  reference coverage --count N --seed S          how often N files reach each row, number and nature
  reference table                                why there was no row, as docs/ROWS.md has it
  reference undump FILE < DUMP                   whether a dump is FILE's: it is read back
  reference refused < FILE                       the first record that no writer would write: its ordinal, its number and field
  reference generate --count N --seed S --out DIR
                                                 writes N files
";

/// What keeps the program from doing its work: a wrong command line, a file that can't be written.
pub struct Trouble(pub String);

impl From<std::io::Error> for Trouble {
    fn from(error: std::io::Error) -> Trouble {
        Trouble(error.to_string())
    }
}

fn main() -> ExitCode {
    let words: Vec<String> = std::env::args().skip(1).collect();
    match run(&words) {
        Ok(true) => ExitCode::SUCCESS,
        Ok(false) => ExitCode::from(1),
        Err(Trouble(what)) => {
            eprintln!("reference: {what}");
            ExitCode::from(2)
        }
    }
}

/// Gives whether all is as it should be.
fn run(words: &[String]) -> Result<bool, Trouble> {
    let Some((command, rest)) = words.split_first() else { return Err(Trouble(USAGE.into())) };
    match command.as_str() {
        "listing" => {
            Options::read(rest, &[])?;
            list()?;
            Ok(true)
        }
        "serve" => {
            Options::read(rest, &[])?;
            differential::serve(&mut std::io::stdin().lock(), &mut std::io::stdout().lock())?;
            Ok(true)
        }
        "differential" => {
            let (options, command) = comparison(rest)?;
            let keep = options.text("--keep").unwrap_or("difference.rev");
            differential::compare(options.number("--count")?, options.number("--seed")?, keep, command)
        }
        "writes" => {
            let (options, command) = comparison(rest)?;
            let keep = options.text("--keep").unwrap_or("difference.txt");
            writes::compare(options.number("--count")?, options.number("--seed")?, keep, command)
        }
        "wires" => {
            let (options, command) = comparison(rest)?;
            let keep = options.text("--keep").unwrap_or("difference.txt");
            wires::compare(options.number("--count")?, options.number("--seed")?, keep, command)
        }
        "wire" => {
            let answer = wire::words::answer(&rest.join(" ")).ok_or(Trouble(USAGE.into()))?;
            println!("{answer}");
            Ok(true)
        }
        "coverage" => {
            let options = Options::read(rest, &["--count", "--seed"])?;
            let mut coverage = coverage::Coverage::new();
            for ordinal in 0..options.number("--count")? {
                let file = generate::file(options.number("--seed")?, ordinal);
                coverage.count(&file, listing::listing(&file, listing::ROOM).as_ref());
            }
            print!("{}", coverage.report());
            Ok(coverage.missing().is_empty())
        }
        "table" => {
            Options::read(rest, &[])?;
            print!("{}", table::table());
            Ok(true)
        }
        "undump" => {
            let [path] = rest else { return Err(Trouble(USAGE.into())) };
            let compared = undump::compare(&std::io::read_to_string(std::io::stdin())?, &std::fs::read(path)?);
            if let Err(what) = &compared {
                println!("{path}: {what}");
            }
            Ok(compared.is_ok())
        }
        "refused" => {
            Options::read(rest, &[])?;
            let mut file = Vec::new();
            std::io::stdin().lock().read_to_end(&mut file)?;
            if let Some((ordinal, number, field)) = refused(&file) {
                println!("{ordinal} {number} {field}");
            }
            Ok(true)
        }
        "generate" => {
            let options = Options::read(rest, &["--count", "--seed", "--out"])?;
            let out = options.text("--out").ok_or(Trouble("--out is missing".into()))?;
            std::fs::create_dir_all(out)?;
            for ordinal in 0..options.number("--count")? {
                let path = format!("{out}/{ordinal:06}.rev");
                std::fs::write(path, generate::file(options.number("--seed")?, ordinal))?;
            }
            Ok(true)
        }
        _ => Err(Trouble(USAGE.into())),
    }
}

/// The options and the command of a comparison.
fn comparison(words: &[String]) -> Result<(Options<'_>, &[String]), Trouble> {
    let end = words.iter().position(|word| word == "--").ok_or(Trouble(USAGE.into()))?;
    let (options, command) = (Options::read(&words[..end], &["--count", "--seed", "--keep"])?, &words[end + 1..]);
    if command.is_empty() {
        return Err(Trouble(USAGE.into()));
    }
    Ok((options, command))
}

/// The listing program: standard input's listing, or `REFUSED 8`.
fn list() -> std::io::Result<()> {
    let mut file = Vec::new();
    // One byte more than a file may have is enough to refuse it.
    let most = model::events::LONGEST_FILE as u64 + 1;
    std::io::stdin().lock().take(most).read_to_end(&mut file)?;
    let listing = listing::listing(&file, listing::ROOM);
    std::io::stdout().write_all(listing.as_ref().map_or(listing::REFUSED, |listing| &listing.text))
}

/// The first record that can't be read or has a field out of its range, wherever the call stands: its ordinal, 5, 6, 7 or 3, and which
/// field it is, 0 where none is to blame.
fn refused(file: &[u8]) -> Option<(usize, u8, usize)> {
    let mut rest = file;
    let mut ordinal = 0;
    while !rest.is_empty() {
        ordinal += 1;
        match model::events::frame(rest) {
            Err(given) => return Some((ordinal, given as u8, 0)),
            // of a record of kind 7 the field is counted in the inner body
            Ok(framed) => match framed.record.event() {
                Err(field) => return Some((ordinal, 3, field)),
                Ok(_) => rest = &rest[framed.size()..],
            },
        }
    }
    None
}

/// Options, each a name and a value.
struct Options<'a>(Vec<(&'a str, &'a str)>);

impl<'a> Options<'a> {
    fn read(words: &'a [String], known: &[&str]) -> Result<Options<'a>, Trouble> {
        let mut options = Vec::new();
        for pair in words.chunks(2) {
            match pair {
                [name, value] if known.contains(&name.as_str()) => options.push((name.as_str(), value.as_str())),
                _ => return Err(Trouble(USAGE.into())),
            }
        }
        Ok(Options(options))
    }

    fn text(&self, name: &str) -> Option<&'a str> {
        self.0.iter().rev().find(|(known, _)| *known == name).map(|(_, value)| *value)
    }

    fn number(&self, name: &str) -> Result<u64, Trouble> {
        let value = self.text(name).ok_or(Trouble(format!("{name} is missing")))?;
        value.parse().map_err(|_| Trouble(format!("{name}: {value} isn't a number")))
    }
}

#[cfg(test)]
mod tests {
    use super::*;

    fn words(line: &str) -> Vec<String> {
        line.split_whitespace().map(str::to_string).collect()
    }

    #[test]
    fn command_lines() {
        let good = words("--count 12 --seed 3 --count 13");
        let options = Options::read(&good, &["--count", "--seed"]).ok().expect("known options");
        assert_eq!(options.number("--count").ok(), Some(13));
        assert_eq!(options.number("--seed").ok(), Some(3));
        for bad in [
            "",
            "listings",
            "listing x",
            "coverage --count 3",
            "coverage --count x --seed 1",
            "differential --count 1",
            "differential --count 1 --seed 1 --",
            "writes --count 1 --seed 1",
            "writes --count 1 -- true",
            "wires --count 1 --seed 1",
            "wire",
            "wire C A1 0",
        ] {
            assert!(run(&words(bad)).is_err(), "{bad}");
        }
    }
}
