//! Reads a job from standard input and prints its lines.

use std::io::{Read, Write};
use std::process::ExitCode;

fn main() -> ExitCode {
    let mut input = Vec::new();
    std::io::stdin().read_to_end(&mut input).expect("the job is read");
    let (out, faulty) = twin::job::run(&input);
    std::io::stdout().write_all(out.as_bytes()).expect("the lines are printed");
    ExitCode::from(u8::from(faulty))
}
