//! answers [--echo] < SCRIPT: what the original Rust answers to each line of a script. With --echo each call stands behind `> ` in front of its answers:
//! the recording of a run, as `simulate audit` reads it.
use hyperscale_network_memory::driver::answer;
use std::io::{BufRead, BufWriter, Write};

/// Each line with its answer.
fn main() {
    let echo = std::env::args().nth(1).as_deref() == Some("--echo");
    let mut out = BufWriter::new(std::io::stdout().lock());
    let mut driver = None;
    for (i, line) in std::io::stdin().lock().lines().enumerate() {
        let line = line.expect("lines of text");
        let text = answer(&mut driver, &line, i + 1);
        let call = if echo && !text.is_empty() { format!("> {line}\n") } else { String::new() };
        if out.write_all((call + &text).as_bytes()).is_err() {
            return; // nobody reads on
        }
    }
}
