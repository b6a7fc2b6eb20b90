//! Another program that answers on its standard output to what it is sent on its standard input, and a line on the terminal that
//! tells how far a comparison with it is.

use crate::Trouble;
use std::io::{BufReader, IsTerminal, Read, Write};
use std::process::{Child, ChildStdin, ChildStdout, Command, Stdio};

pub struct Server {
    name: String,
    process: Child,
    pub input: ChildStdin,
    pub output: BufReader<ChildStdout>,
}

impl Server {
    pub fn start(command: &[String]) -> Result<Server, Trouble> {
        let name = command[0].clone();
        let mut process = Command::new(&name)
            .args(&command[1..])
            .stdin(Stdio::piped())
            .stdout(Stdio::piped())
            .spawn()
            .map_err(|error| Trouble(format!("{name} can't be started: {error}")))?;
        let input = process.stdin.take().expect("a pipe");
        let output = BufReader::new(process.stdout.take().expect("a pipe"));
        Ok(Server { name, process, input, output })
    }

    /// What to say where it has no answer to `what`. It ends when its input does, or when nobody reads what it says.
    pub fn lost(self, what: &str, error: std::io::Error) -> Trouble {
        let Server { name, mut process, input, output } = self;
        drop(input);
        drop(output);
        let end = process.wait().map_or_else(|error| error.to_string(), |status| status.to_string());
        Trouble(format!("{what}: {name} has no answer: {error}; it ends with {end}"))
    }

    /// Its input ends: it has nothing more to say, and ends with status 0.
    pub fn end(mut self) -> Result<(), Trouble> {
        drop(self.input);
        let mut more = Vec::new();
        self.output.read_to_end(&mut more)?;
        let status = self.process.wait()?;
        if !more.is_empty() || !status.success() {
            return Err(Trouble(format!("{} ends with {status} and {} bytes too many", self.name, more.len())));
        }
        Ok(())
    }

    /// It is stopped where it stands.
    pub fn stop(mut self) -> Result<(), Trouble> {
        self.process.kill()?;
        self.process.wait()?;
        Ok(())
    }
}

/// A line that is written over, on a terminal only.
pub fn progress(done: u64, count: u64, what: &str) {
    let mut terminal = std::io::stderr();
    if (done.is_multiple_of(1000) || done == count) && terminal.is_terminal() {
        let _ = write!(terminal, "\r{done} of {count} {what}");
    }
}

pub fn end_progress() {
    if std::io::stderr().is_terminal() {
        eprintln!();
    }
}
