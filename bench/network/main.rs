//! network < script > answers: a script of calls through the archive's C functions.
mod calls;
mod script;
use std::io::{BufRead, Write};

type Table<T> = Vec<T>;

/// Each line with its answer.
fn main() {
    let stdin = std::io::stdin().lock();
    let mut stdout = std::io::BufWriter::new(std::io::stdout().lock());
    let mut network = None;
    for (i, line) in stdin.lines().enumerate() {
        let line = line.expect("standard input");
        if stdout.write_all(script::run_line(&mut network, &line, i + 1).as_bytes()).is_err() {
            return; // the reader went away
        }
    }
}
