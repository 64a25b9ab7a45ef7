//! Runs generated jobs through the program and through the twin, line by line.
//! compare PROGRAM [SEED] [JOBS]: stops at the first difference, with the smallest job that shows it.

use std::collections::BTreeMap;
use std::io::Write;
use std::process::{Command, ExitCode, Stdio};
use std::time::{SystemTime, UNIX_EPOCH};
use twin::generate::{job, Random};

/// What a program prints, and whether it ended with status 0.
type Printed = (Vec<u8>, bool);

fn by_program(program: &str, input: &[u8]) -> Printed {
    let mut child = Command::new(program)
        .stdin(Stdio::piped())
        .stdout(Stdio::piped())
        .stderr(Stdio::null())
        .spawn()
        .expect("the program starts");
    child.stdin.take().expect("its input").write_all(input).expect("the job is taken");
    let output = child.wait_with_output().expect("the program ends");
    (output.stdout, output.status.success())
}

fn by_twin(input: &[u8]) -> Printed {
    let (out, faulty) = twin::job::run(input);
    (out.into_bytes(), !faulty)
}

fn joined(lines: &[Vec<u8>]) -> Vec<u8> {
    lines.iter().flat_map(|line| line.iter().copied().chain([b'\n'])).collect()
}

fn differs(program: &str, lines: &[Vec<u8>]) -> bool {
    let input = joined(lines);
    by_program(program, &input) != by_twin(&input)
}

/// Takes lines out, many and then few at a time, for as long as the difference stays.
fn smallest(program: &str, mut lines: Vec<Vec<u8>>) -> Vec<Vec<u8>> {
    let mut size = lines.len();
    while size > 0 {
        let mut at = 0;
        while at < lines.len() {
            let mut fewer = lines.clone();
            fewer.drain(at..(at + size).min(fewer.len()));
            if differs(program, &fewer) {
                lines = fewer;
            } else {
                at += size;
            }
        }
        size /= 2;
    }
    lines
}

/// The first word of a line, or `R` and the number of a refusal.
fn kind(line: &str) -> String {
    let words: Vec<&str> = line.split(' ').collect();
    if words[0] == "R" {
        format!("R {:>2}", words[1])
    } else {
        words[0].into()
    }
}

fn main() -> ExitCode {
    let args: Vec<String> = std::env::args().collect();
    let program = args.get(1).expect("compare PROGRAM [SEED] [JOBS]");
    let clock = || SystemTime::now().duration_since(UNIX_EPOCH).expect("a clock").as_secs();
    let seed: u64 = args.get(2).map_or_else(clock, |s| s.parse().expect("a seed"));
    let jobs: u64 = args.get(3).map_or(20_000, |s| s.parse().expect("a count of jobs"));
    println!("seed {seed}, {jobs} jobs");
    let mut kinds: BTreeMap<String, u64> = BTreeMap::new();
    let mut printed = 0;
    for at in 0..jobs {
        let lines = job(&mut Random::new(seed.wrapping_mul(1_000_003).wrapping_add(at)));
        let input = joined(&lines);
        let (theirs, ours) = (by_program(program, &input), by_twin(&input));
        if theirs != ours {
            let small = joined(&smallest(program, lines));
            println!("job {at} differs; the smallest that shows it:");
            println!("{}", String::from_utf8_lossy(&small));
            println!("the program prints:\n{}", String::from_utf8_lossy(&by_program(program, &small).0));
            println!("the twin prints:\n{}", String::from_utf8_lossy(&by_twin(&small).0));
            return ExitCode::FAILURE;
        }
        for line in String::from_utf8_lossy(&ours.0).lines() {
            *kinds.entry(kind(line)).or_default() += 1;
            printed += 1;
        }
    }
    for (kind, count) in &kinds {
        println!("{kind:>8} {count}");
    }
    println!("{jobs} jobs, {printed} lines, no difference");
    ExitCode::SUCCESS
}
