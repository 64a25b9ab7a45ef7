//! Cards: figures to whole numbers, and reduced by the factors to a two-line law.

use crate::law::{refuse, Law, Refusal, Shape};

#[derive(Clone, Copy, Debug, PartialEq, Eq)]
pub enum Kind {
    Uhpc,
    Deck,
    Steel,
}

const KSI: f64 = 1_000.0;
const NANO: f64 = 1_000_000_000.0;

/// The range of each figure of a card, and what it is multiplied by.
pub fn ranges(kind: Kind) -> &'static [(f64, f64, f64)] {
    match kind {
        Kind::Uhpc => &[
            (100.0, 40_000.0, KSI),
            (17.5, 40.0, KSI),
            (0.75, 5.0, KSI),
            (0.001, 0.1, NANO),
            (0.0025, 0.1, NANO),
        ],
        Kind::Deck => &[(100.0, 40_000.0, KSI), (2.0, 20.0, KSI), (0.001, 0.1, NANO)],
        Kind::Steel => &[(100.0, 40_000.0, KSI), (1.0, 300.0, KSI), (0.001, 0.1, NANO)],
    }
}

pub fn law_of(kind: Kind, figures: &[f64], alpha: i64, gamma: i64) -> Result<Law, Refusal> {
    let mut whole = Vec::new();
    for (place, (figure, (least, most, scale))) in figures.iter().zip(ranges(kind)).enumerate() {
        // A figure that is not a number is in no range.
        if !(least <= figure && figure <= most) {
            return refuse(1, &[place as i64]);
        }
        whole.push((figure * scale).round() as i128);
    }
    for (place, factor) in [alpha, gamma].iter().enumerate() {
        if !(1..=850).contains(factor) {
            return refuse(2, &[place as i64]);
        }
    }
    let (alpha, gamma) = (alpha as i128, gamma as i128);
    Ok(match kind {
        Kind::Uhpc => Law {
            shape: Shape::TwoLine(whole[0], alpha * whole[1] / 1_000, gamma * whole[2] / 1_000),
            compression: whole[3],
            tension: gamma * whole[4] / 1_000,
        },
        Kind::Deck => Law {
            shape: Shape::TwoLine(whole[0], alpha * whole[1] / 1_000, 0),
            compression: whole[2],
            tension: 100_000_000,
        },
        Kind::Steel => Law {
            shape: Shape::TwoLine(whole[0], whole[1], whole[1]),
            compression: whole[2],
            tension: whole[2],
        },
    })
}
