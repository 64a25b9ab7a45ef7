//! A job: lines as commands, what each does, and the line that it prints.

use crate::card::{law_of, ranges, Kind};
use crate::law::{numbered, point_law, reach, Law, Refusal, Shape};
use crate::section::{Ends, Outcome, Section, State};

/// Materials until the section begins, and the section from then on.
enum Stage {
    Materials(Vec<Law>),
    Section(Section),
}

pub struct Job {
    stage: Stage,
    /// A line printed an `E`.
    pub faulty: bool,
}

/// Why nothing is answered: a refusal, or a fault of the line.
enum Stop {
    Refused(Refusal),
    Fault(String),
}

impl From<Refusal> for Stop {
    fn from(refusal: Refusal) -> Stop {
        Stop::Refused(refusal)
    }
}

fn fault<T>(text: impl Into<String>) -> Result<T, Stop> {
    Err(Stop::Fault(text.into()))
}

const FORMS: [(&str, &str); 15] = [
    ("uhpc", "expected uhpc MODULUS STRENGTH CRACKING ULTIMATE LOCALIZATION ALPHA GAMMA"),
    ("deck", "expected deck MODULUS STRENGTH ULTIMATE ALPHA GAMMA"),
    ("steel", "expected steel MODULUS YIELD RUPTURE ALPHA GAMMA"),
    ("points", "expected points COMPRESSION TENSION and then STRAIN STRESS for each point"),
    ("stress", "expected stress NUMBER STRAIN"),
    ("reach", "expected reach NUMBER STRESS"),
    ("fibre", "expected fibre DEPTH AREA MATERIAL INITIAL"),
    ("take", "expected take POSITION"),
    ("load", "expected load FORCE DEPTH"),
    ("ask", "expected ask CURVATURE"),
    ("start", "expected start alone"),
    ("step", "expected step alone"),
    ("reopen", "expected reopen alone"),
    ("result", "expected result alone"),
    ("walk", "expected walk alone"),
];

fn words(line: &[u8]) -> Vec<&[u8]> {
    line.split(|b| [b' ', b'\t', b'\r'].contains(b)).filter(|w| !w.is_empty()).collect()
}

fn parse<T: std::str::FromStr>(word: &[u8]) -> Option<T> {
    std::str::from_utf8(word).ok()?.parse().ok()
}

/// The figures and then the whole numbers that follow a command's word.
fn numbers(arguments: &[&[u8]], figures: usize) -> Result<(Vec<f64>, Vec<i64>), Stop> {
    let mut reals = Vec::new();
    let mut wholes = Vec::new();
    for (place, word) in arguments.iter().enumerate() {
        if place < figures {
            match parse(word) {
                Some(x) => reals.push(x),
                None => return fault(format!("place {place} is not a number")),
            }
        } else {
            match parse(word) {
                Some(n) => wholes.push(n),
                None => return fault(format!("place {place} is not a whole number of 64 bits")),
            }
        }
    }
    Ok((reals, wholes))
}

fn narrow(n: i64, place: usize) -> Result<i128, Stop> {
    match i32::try_from(n) {
        Ok(n) => Ok(n as i128),
        Err(_) => fault(format!("place {place} is not a whole number of 32 bits")),
    }
}

fn cause(refusal: &Refusal) -> String {
    let mut text = refusal.number.to_string();
    for place in &refusal.places {
        text += &format!(" {place}");
    }
    text
}

fn ends(e: &Ends) -> String {
    format!("{} {} {} {}", e.first, e.last, e.first_moment, e.last_moment)
}

fn state(s: &State) -> String {
    match s {
        State::Draft => "draft".into(),
        State::Walking(k) => format!("walking {k}"),
        State::Ended(k, why) => format!("ended {k} {}", cause(why)),
    }
}

fn outcome(o: &Outcome) -> String {
    format!("{} {} {}", o.curvature, ends(&o.ends), cause(&o.cause))
}

impl Default for Job {
    fn default() -> Job {
        Job { stage: Stage::Materials(Vec::new()), faulty: false }
    }
}

impl Job {
    /// The section, once it has begun.
    pub fn begun(&self) -> Option<&Section> {
        match &self.stage {
            Stage::Section(section) => Some(section),
            Stage::Materials(_) => None,
        }
    }

    pub fn kit(&self) -> &[Law] {
        match &self.stage {
            Stage::Materials(kit) => kit,
            Stage::Section(section) => &section.kit,
        }
    }

    /// The line that a line prints, if it prints one.
    pub fn line(&mut self, number: usize, line: &[u8]) -> Option<String> {
        let words = words(line);
        let (word, arguments) = words.split_first()?;
        if word[0] == b'#' {
            return None;
        }
        Some(match self.command(word, arguments) {
            Ok(text) => text,
            Err(Stop::Refused(refusal)) => format!("R {}", cause(&refusal)),
            Err(Stop::Fault(text)) => {
                self.faulty = true;
                format!("E {number} {text}")
            }
        })
    }

    fn command(&mut self, word: &[u8], arguments: &[&[u8]]) -> Result<String, Stop> {
        let Some((name, form)) = FORMS.iter().find(|(name, _)| name.as_bytes() == word) else {
            return fault("no such command");
        };
        let count = arguments.len();
        let (taken, figures) = match *name {
            "uhpc" => (count == 7, 5),
            "deck" | "steel" => (count == 5, 3),
            "points" => (count >= 2 && count % 2 == 0, 0),
            "fibre" => (count == 4, 0),
            "stress" | "reach" | "load" => (count == 2, 0),
            "take" | "ask" => (count == 1, 0),
            _ => (count == 0, 0),
        };
        if !taken {
            return fault(*form);
        }
        let (reals, wholes) = numbers(arguments, figures)?;
        match *name {
            "uhpc" => self.card(name, Kind::Uhpc, &reals, &wholes),
            "deck" => self.card(name, Kind::Deck, &reals, &wholes),
            "steel" => self.card(name, Kind::Steel, &reals, &wholes),
            "points" => self.points(&wholes),
            "stress" => {
                let strain = narrow(wholes[1], 1)?;
                match numbered(self.kit(), wholes[0]) {
                    Some(law) => Ok(format!("stress {}", law.stress(strain))),
                    None => Err(Stop::Refused(Refusal { number: 8, places: vec![] })),
                }
            }
            "reach" => {
                let stress = narrow(wholes[1], 1)?;
                Ok(format!("reach {}", reach(self.kit(), wholes[0], stress)?))
            }
            _ => self.call(name, &wholes),
        }
    }

    fn materials(&mut self) -> Result<&mut Vec<Law>, Stop> {
        match &mut self.stage {
            Stage::Materials(kit) => Ok(kit),
            Stage::Section(_) => fault("the section has begun, and its materials are fixed"),
        }
    }

    fn card(&mut self, name: &str, kind: Kind, figures: &[f64], factors: &[i64]) -> Result<String, Stop> {
        assert_eq!(figures.len(), ranges(kind).len());
        let kit = self.materials()?;
        let law = law_of(kind, figures, factors[0], factors[1])?;
        let Shape::TwoLine(modulus, compression, tension) = law.shape else {
            unreachable!("a card makes a two-line law");
        };
        let text = format!(
            "{name} {} {modulus} {compression} {tension} {} {}",
            kit.len(),
            law.compression,
            law.tension
        );
        kit.push(law);
        Ok(text)
    }

    fn points(&mut self, wholes: &[i64]) -> Result<String, Stop> {
        let points: Vec<_> = wholes[2..].chunks(2).map(|p| (p[0], p[1])).collect();
        let kit = self.materials()?;
        kit.push(point_law(wholes[0], wholes[1], &points)?);
        Ok(format!("points {}", kit.len() - 1))
    }

    fn section(&mut self) -> &mut Section {
        if let Stage::Materials(kit) = &mut self.stage {
            let kit = std::mem::take(kit);
            self.stage = Stage::Section(Section::new(kit));
        }
        match &mut self.stage {
            Stage::Section(section) => section,
            Stage::Materials(_) => unreachable!("the section has begun"),
        }
    }

    fn call(&mut self, name: &str, n: &[i64]) -> Result<String, Stop> {
        if name == "ask" && u32::try_from(n[0]).is_err() {
            return fault("place 0 is not a whole number from 0 to 4294967295");
        }
        let section = self.section();
        Ok(match name {
            "fibre" => format!("fibre {}", section.put(n[0], n[1], n[2], n[3])?),
            "take" => section.take(n[0]).map(|()| "take".into())?,
            "load" => section.set_load(n[0], n[1]).map(|()| "load".into())?,
            "ask" => format!("ask {}", ends(&section.ask(n[0] as i128)?)),
            "start" => format!("start {}", state(&section.start()?)),
            "step" => format!("step {}", state(&section.step()?)),
            "reopen" => format!("reopen {}", state(&section.reopen()?)),
            "result" => format!("result {}", outcome(&section.result()?)),
            "walk" => format!("walk {}", outcome(&section.walk()?)),
            _ => unreachable!("every command is known"),
        })
    }
}

/// All that a job prints, and whether a line was an `E`.
pub fn run(input: &[u8]) -> (String, bool) {
    let mut job = Job::default();
    let mut out = String::new();
    let mut lines: Vec<&[u8]> = input.split(|b| *b == b'\n').collect();
    if lines.last() == Some(&&b""[..]) {
        lines.pop();
    }
    for (at, line) in lines.iter().enumerate() {
        if let Some(text) = job.line(at + 1, line) {
            out += &text;
            out.push('\n');
        }
    }
    (out, job.faulty)
}
