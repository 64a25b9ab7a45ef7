//! figures PROGRAM: times walks in the program and in a plain Rust build of the same search, side by side.

use std::cell::Cell;
use std::io::Write;
use std::process::{Command, Stdio};
use std::time::{Duration, Instant};
use twin::plain::{Fibre, Law, Section};

const CARDS: &str = "uhpc 6933 22 1.177 0.0035 0.003529412 850 850\nsteel 29000 60 0.09 850 850\n";

/// A beam 384 sixteenths deep in so many layers, one of them its bars.
fn layers(count: u32) -> Vec<Fibre> {
    let fibre = |at: u32| Fibre {
        depth: 384 * at / (count - 1),
        area: if at == count * 9 / 10 { 4_680 } else { 288_000 / count },
        material: u8::from(at == count * 9 / 10),
        initial: 0,
    };
    (0..count).map(fibre).collect()
}

fn section(count: u32) -> Section {
    let uhpc = Law {
        modulus: 6_933_000,
        compression_plateau: 18_700,
        tension_plateau: 1_000,
        compression: 3_500_000,
        tension: 3_000_000,
    };
    let steel = Law {
        modulus: 29_000_000,
        compression_plateau: 60_000,
        tension_plateau: 60_000,
        compression: 90_000_000,
        tension: 90_000_000,
    };
    Section { kit: vec![uhpc, steel], fibres: layers(count), load: 0, load_depth: 0, forces: Cell::new(0) }
}

fn job(count: u32, commands: &str) -> String {
    let mut text = CARDS.to_string();
    for f in layers(count) {
        text += &format!("fibre {} {} {} {}\n", f.depth, f.area, f.material, f.initial);
    }
    text + commands
}

/// The last line that the program prints, and the time that it took.
fn run(program: &str, job: &str) -> (String, Duration) {
    let begun = Instant::now();
    let mut child = Command::new(program)
        .stdin(Stdio::piped())
        .stdout(Stdio::piped())
        .stderr(Stdio::null())
        .spawn()
        .expect("the program starts");
    let mut input = child.stdin.take().expect("its input");
    let text = job.to_string();
    let writer = std::thread::spawn(move || input.write_all(text.as_bytes()).expect("the job is taken"));
    let output = child.wait_with_output().expect("the program ends");
    writer.join().expect("the job was written");
    let out = String::from_utf8(output.stdout).expect("text");
    (out.lines().last().unwrap_or("").into(), begun.elapsed())
}

/// The shortest of a few runs.
fn best<T>(tries: u32, f: impl Fn() -> (T, Duration)) -> (T, Duration) {
    (0..tries).map(|_| f()).min_by_key(|r| r.1).expect("a run")
}

fn main() {
    let program = std::env::args().nth(1).expect("figures PROGRAM");
    println!("| fibres | curvatures walked | forces for each | program, ms | plain Rust, ms | ratio |");
    println!("|---|---|---|---|---|---|");
    for count in [8, 64, 512] {
        let tries = if count == 512 { 3 } else { 5 };
        let (_, idle) = best(tries, || run(&program, &job(count, "load 0 0\n")));
        let (line, walked) = best(tries, || run(&program, &job(count, "load 0 0\nwalk\n")));
        let (plain, time) = best(tries, || {
            let section = section(count);
            let begun = Instant::now();
            let walk = section.walk().expect("a walk");
            ((walk, section.forces.get()), begun.elapsed())
        });
        let ((last, ends), forces) = plain;
        let want = format!("walk {last} {} {} {} {} ", ends.first, ends.last, ends.first_moment, ends.last_moment);
        assert!(line.starts_with(&want), "the two walks differ: {line} and {want}");
        let ours = (walked - idle.min(walked)).as_secs_f64() * 1e3;
        let theirs = time.as_secs_f64() * 1e3;
        let each = forces as f64 / (last + 2) as f64;
        println!("| {count} | {last} | {each:.1} | {ours:.1} | {theirs:.1} | {:.2} |", ours / theirs);
    }
    println!();
    println!("| steps of 512 fibres | program, ms |");
    println!("|---|---|");
    let (_, idle) = best(3, || run(&program, &job(512, "load 0 0\nstart\n")));
    for steps in [1_000, 2_000, 4_000, 8_000] {
        let commands = format!("load 0 0\nstart\n{}", "step\n".repeat(steps));
        let (line, time) = best(3, || run(&program, &job(512, &commands)));
        assert_eq!(line, format!("step walking {steps}"));
        println!("| {steps} | {:.1} |", (time - idle.min(time)).as_secs_f64() * 1e3);
    }
}
