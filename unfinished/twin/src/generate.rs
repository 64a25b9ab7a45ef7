//! Jobs that lean on the hard places: flat stretches, tied limits, loads that are just reached or just missed,
//! limits of one nano, the ends of every range, refused lines between accepted ones, and lines that are no command.

use crate::job::Job;
use crate::section::{Section, State};

/// A plain generator of numbers from a seed (splitmix64).
pub struct Random(u64);

impl Random {
    pub fn new(seed: u64) -> Random {
        Random(seed)
    }

    pub fn next(&mut self) -> u64 {
        self.0 = self.0.wrapping_add(0x9E37_79B9_7F4A_7C15);
        let mut z = self.0;
        z = (z ^ (z >> 30)).wrapping_mul(0xBF58_476D_1CE4_E5B9);
        z = (z ^ (z >> 27)).wrapping_mul(0x94D0_49BB_1331_11EB);
        z ^ (z >> 31)
    }

    fn below(&mut self, n: u64) -> u64 {
        self.next() % n
    }

    fn one_in(&mut self, n: u64) -> bool {
        self.below(n) == 0
    }

    fn range(&mut self, low: i64, high: i64) -> i64 {
        low + (self.next() as u128 % ((high as i128 - low as i128 + 1) as u128)) as i64
    }

    fn pick<T: Copy>(&mut self, items: &[T]) -> T {
        items[self.below(items.len() as u64) as usize]
    }

    /// A number in a range, often at or near an end of it, now and then past it.
    fn near_ends(&mut self, low: i64, high: i64) -> i64 {
        match self.below(12) {
            0 => low,
            1 => high,
            2 => low.saturating_sub(1),
            3 => high.saturating_add(1),
            4 => (low + 1).min(high),
            5 => (high - 1).max(low),
            6 if self.one_in(4) => self.pick(&[i64::MIN, i64::MAX, -1, 0]),
            _ => self.range(low, high),
        }
    }
}

/// A figure within its range, at an end, or one float past it, written so that it reads back the same.
fn figure(r: &mut Random, least: f64, most: f64) -> String {
    let up = |x: f64| f64::from_bits(x.to_bits() + 1);
    let down = |x: f64| f64::from_bits(x.to_bits() - 1);
    let x = match r.below(16) {
        0 => least,
        1 => most,
        2 => up(least),
        3 => down(most),
        4 => down(least),
        5 => up(most),
        6 => return r.pick(&["nan", "inf", "-inf", "-0.0", "1e400", "1e-400", "+1", ".5", "5.", "x", "1_0", "0x1"]).into(),
        _ => least + (most - least) * (r.below(1_000_001) as f64 / 1_000_000.0),
    };
    match r.below(3) {
        0 => format!("{x:e}"),
        _ => format!("{x:?}"),
    }
}

fn factor(r: &mut Random) -> i64 {
    match r.below(8) {
        0 => r.near_ends(1, 850),
        1 => 1,
        _ => 850,
    }
}

fn card(r: &mut Random) -> String {
    let (name, kind) = match r.below(3) {
        0 => ("uhpc", crate::card::Kind::Uhpc),
        1 => ("deck", crate::card::Kind::Deck),
        _ => ("steel", crate::card::Kind::Steel),
    };
    let mut text = name.to_string();
    for (least, most, _) in crate::card::ranges(kind) {
        // Most figures are good, so that most cards are.
        let x = if r.one_in(4) {
            figure(r, *least, *most)
        } else {
            format!("{:?}", least + (most - least) * (r.below(1001) as f64 / 1000.0))
        };
        text += &format!(" {x}");
    }
    text + &format!(" {} {}", factor(r), factor(r))
}

fn limit(r: &mut Random) -> i64 {
    match r.below(8) {
        0 | 1 => 1,
        2 => r.range(2, 20),
        3 => 100_000_000,
        4 => r.near_ends(1, 100_000_000),
        _ => r.range(1, 3_000_000),
    }
}

/// Points with flat stretches, steep steps and stresses at the ends of their range.
fn points(r: &mut Random) -> String {
    let count = if r.one_in(12) { r.below(19) } else { 2 + r.below(4) };
    let span = r.pick(&[1, 5, 100, 1_000_000, 100_000_000]);
    let top = r.pick(&[1, 7, 1_000, 300_000]);
    let mut strains: Vec<i64> = (0..count).map(|_| r.range(-span, span)).collect();
    let mut stresses: Vec<i64> = (0..count).map(|_| if r.one_in(3) { 0 } else { r.range(-top, top) }).collect();
    strains.sort();
    stresses.sort();
    if !r.one_in(10) {
        strains.dedup();
    }
    if r.one_in(12) && count > 1 {
        stresses.reverse();
    }
    let mut text = format!("points {} {}", limit(r), limit(r));
    for (strain, stress) in strains.iter().zip(&stresses) {
        let strain = if r.one_in(60) { r.near_ends(-100_000_000, 100_000_000) } else { *strain };
        let stress = if r.one_in(60) { r.near_ends(-300_000, 300_000) } else { *stress };
        text += &format!(" {strain} {stress}");
    }
    text
}

fn material(r: &mut Random) -> String {
    match r.below(8) {
        0 | 1 => "steel 1000 1 0.002 850 850".into(),
        2 | 3 => card(r),
        _ => points(r),
    }
}

fn fibre(r: &mut Random, kit: usize) -> String {
    let depth = if r.one_in(10) { r.near_ends(0, 4_096) } else { r.pick(&[0, 0, 1, 2, 3, 50, 100, 100, 384, 4_096]) };
    let area = if r.one_in(10) { r.near_ends(1, 2_000_000) } else { r.pick(&[1, 2, 1_000, 1_000, 1_500, 2_000_000]) };
    let material = if r.one_in(12) { r.near_ends(0, kit as i64) } else { r.below(kit.max(1) as u64) as i64 };
    let initial = match r.below(10) {
        0 => r.near_ends(-100_000_000, 100_000_000),
        1 => r.range(-3, 3),
        2 => r.range(-1_000_000, 1_000_000),
        _ => 0,
    };
    format!("fibre {depth} {area} {material} {initial}")
}

/// A load that a force just reaches or just misses, at a top strain that the limits admit if there is one.
fn load(r: &mut Random, section: Option<&Section>) -> String {
    let depth = r.pick(&[0, 0, 0, 50, 4_096]);
    if let Some(section) = section {
        if !section.fibres.is_empty() && !r.one_in(4) {
            let curvature = r.pick(&[0, 0, 1, 2, 100, 10_000]) as i128;
            let top = match section.ask(curvature) {
                Ok(e) => e.first + r.range(-2, 2) as i128,
                Err(_) => r.range(-2_000_000, 2_000_000) as i128,
            };
            let force = section.force(curvature, top) + r.range(-1, 1) as i128;
            return format!("load {force} {depth}");
        }
    }
    let most = 400_000_000_000_000;
    let force = if r.one_in(3) { r.near_ends(-most, most) } else { r.range(-3, 3) * 1_000 };
    let depth = if r.one_in(8) { r.near_ends(0, 4_096) } else { depth };
    format!("load {force} {depth}")
}

fn ask(r: &mut Random) -> String {
    let curvature = match r.below(8) {
        0 => r.near_ends(0, 65_535),
        1 => 65_535,
        2 | 3 => 0,
        4 => r.range(0, 40_001),
        5 if r.one_in(6) => r.pick(&[-1, 4_294_967_295, 4_294_967_296, i64::MAX, i64::MIN]),
        _ => r.range(0, 300),
    };
    format!("ask {curvature}")
}

/// A walk of the section stays short enough to be tried by the slow ways of the twin.
fn walks_soon(section: Option<&Section>) -> bool {
    let Some(section) = section else { return true };
    let depths = section.fibres.iter().map(|f| f.depth);
    let spread = depths.clone().max().unwrap_or(0) - depths.min().unwrap_or(0);
    let room: i128 = section.kit.iter().map(|law| law.compression + law.tension).max().unwrap_or(2);
    let from = match section.state {
        State::Walking(k) => k,
        _ => 0,
    };
    let steps = if spread == 0 { 65_536 } else { (room + 200_000_000).min(room * 2) / spread + 1 };
    let cost = if room <= 1_000 { 2 * room } else { 150 };
    (steps.min(65_536) - from) * cost * section.fibres.len() as i128 <= 3_000_000
}

/// A line that is no command, or is none of anything.
fn odd(r: &mut Random) -> Vec<u8> {
    match r.below(10) {
        0 => b"".to_vec(),
        1 => b" \t# a remark \xff".to_vec(),
        2 => b"\xff\xfe ask 0".to_vec(),
        3 => b"ASK 0".to_vec(),
        4 => b"walk now".to_vec(),
        5 => b"ask 1.0".to_vec(),
        6 => b"stress 0 99999999999".to_vec(),
        7 => b"fibre 1 2 3".to_vec(),
        8 => b"load 1 9223372036854775808".to_vec(),
        _ => (0..r.below(20)).map(|_| r.next() as u8).filter(|b| *b != b'\n').collect(),
    }
}

fn look_up(r: &mut Random, kit: usize) -> String {
    let number = r.near_ends(0, kit as i64);
    match r.below(3) {
        0 => format!("stress {number} {}", r.near_ends(i32::MIN as i64, i32::MAX as i64)),
        1 => format!("stress {number} {}", r.range(-3_000_000, 3_000_000)),
        _ => format!("reach {number} {}", r.range(-1_100, 1_100) * r.pick(&[1, 1, 300])),
    }
}

/// Blanks of every sort between the words of a line, for one line in many.
fn spaced(r: &mut Random, line: String) -> Vec<u8> {
    if !r.one_in(20) {
        return line.into_bytes();
    }
    let gap = r.pick(&["  ", "\t", " \r", "\t \t"]);
    format!("{gap}{}\r", line.replace(' ', gap)).into_bytes()
}

/// A job, line by line, made with an eye on what it has come to.
pub fn job(r: &mut Random) -> Vec<Vec<u8>> {
    let mut lines: Vec<Vec<u8>> = Vec::new();
    let mut seen = Job::default();
    let materials = 1 + r.below(4);
    let length = 6 + r.below(30);
    // A few sections are filled to the last fibre or nearly so.
    let filled = if r.one_in(250) { r.range(509, 513) as usize } else { 0 };
    for at in 0..materials + length {
        let kit = seen.kit().len();
        if at == materials && kit > 0 {
            for _ in 0..filled {
                let depth = r.pick(&[0, 384, 4_096]);
                let line = format!("fibre {depth} {} {} 0", r.range(1, 2_000), r.below(kit as u64));
                seen.line(1, line.as_bytes());
                lines.push(line.into_bytes());
            }
        }
        let fibres = seen.begun().map_or(0, |s| s.fibres.len());
        let line = if r.one_in(25) {
            odd(r)
        } else if at < materials {
            let line = material(r);
            spaced(r, line)
        } else {
            let state = seen.begun().map_or(&State::Draft, |s| &s.state);
            let line = match (state, r.below(24)) {
                // Most lines fit the state; a few are out of turn.
                (State::Walking(_), 0..=5) => "step".into(),
                (State::Walking(_), 6 | 7) => "reopen".into(),
                (State::Ended(..), 0..=3) => "result".into(),
                (State::Ended(..), 4..=8) => "reopen".into(),
                (State::Draft, 17..=19) => fibre(r, kit),
                (_, 0..=6) => fibre(r, kit),
                (_, 7) => format!("take {}", r.near_ends(0, fibres as i64)),
                (_, 8 | 9 | 10) => load(r, seen.begun()),
                (_, 11..=14) => ask(r),
                (_, 15) => "start".into(),
                (_, 16) => "step".into(),
                (_, 17 | 18) => "reopen".into(),
                (_, 19) => "result".into(),
                (_, 20 | 21) if walks_soon(seen.begun()) => "walk".into(),
                (_, 22) => look_up(r, kit),
                (_, 23) if r.one_in(3) => material(r),
                _ => fibre(r, kit),
            };
            spaced(r, line)
        };
        seen.line(1, &line);
        lines.push(line);
    }
    lines
}
