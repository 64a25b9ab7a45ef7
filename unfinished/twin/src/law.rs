//! Laws: a stress for every strain, and two limits.

/// A refusal: its number and its places.
#[derive(Clone, Debug, PartialEq, Eq)]
pub struct Refusal {
    pub number: u8,
    pub places: Vec<i64>,
}

pub fn refuse<T>(number: u8, places: &[i64]) -> Result<T, Refusal> {
    Err(Refusal { number, places: places.to_vec() })
}

#[derive(Clone, Debug)]
pub enum Shape {
    /// modulus, compression plateau, tension plateau
    TwoLine(i128, i128, i128),
    /// strain and stress of each point
    Points(Vec<(i128, i128)>),
}

#[derive(Clone, Debug)]
pub struct Law {
    pub shape: Shape,
    pub compression: i128,
    pub tension: i128,
}

impl Law {
    pub fn stress(&self, strain: i128) -> i128 {
        match &self.shape {
            Shape::TwoLine(modulus, compression, tension) => {
                // Rust's division drops the fraction toward zero.
                let elastic = modulus * strain / 1_000_000_000;
                if elastic > *tension {
                    *tension
                } else if elastic < -compression {
                    -compression
                } else {
                    elastic
                }
            }
            Shape::Points(points) => {
                let (first, last) = (points[0], points[points.len() - 1]);
                if strain <= first.0 {
                    return first.1;
                }
                if strain >= last.0 {
                    return last.1;
                }
                let right = points.iter().position(|p| strain < p.0).unwrap();
                let ((s, v), (t, w)) = (points[right - 1], points[right]);
                v + (w - v) * (strain - s) / (t - s)
            }
        }
    }

    pub fn inside(&self, strain: i128) -> bool {
        -self.compression <= strain && strain <= self.tension
    }
}

pub fn point_law(compression: i64, tension: i64, points: &[(i64, i64)]) -> Result<Law, Refusal> {
    let limit = |x: i64| (1..=100_000_000).contains(&x);
    if points.len() < 2 || points.len() > 16 || !limit(compression) || !limit(tension) {
        return refuse(3, &[]);
    }
    for (at, (strain, stress)) in points.iter().enumerate() {
        let ranged = strain.unsigned_abs() <= 100_000_000 && stress.unsigned_abs() <= 300_000;
        let ordered = at == 0 || (points[at - 1].0 < *strain && points[at - 1].1 <= *stress);
        if !ranged || !ordered {
            return refuse(4, &[at as i64]);
        }
    }
    let points = points.iter().map(|p| (p.0 as i128, p.1 as i128)).collect();
    Ok(Law { shape: Shape::Points(points), compression: compression as i128, tension: tension as i128 })
}

/// The law of a material number, if the kit has one in reach.
pub fn numbered(kit: &[Law], number: i64) -> Option<&Law> {
    if (0..255).contains(&number) {
        kit.get(number as usize)
    } else {
        None
    }
}

/// The least strain within the limits whose stress is not below the given one.
pub fn reach(kit: &[Law], number: i64, stress: i128) -> Result<i128, Refusal> {
    let Some(law) = numbered(kit, number) else {
        return refuse(8, &[]);
    };
    match first_where(-law.compression, law.tension, |strain| law.stress(strain) >= stress) {
        Some(strain) => Ok(strain),
        None => refuse(16, &[]),
    }
}

/// The least point of a range from which on a property holds, by strides that grow ten times shorter.
/// Short ranges are tried point by point, which also holds the property to its word.
pub fn first_where(low: i128, high: i128, holds: impl Fn(i128) -> bool) -> Option<i128> {
    if high - low <= 2_000 {
        let found = (low..=high).find(|x| holds(*x));
        if let Some(from) = found {
            assert!((from..=high).all(&holds), "a quantity fell");
        }
        return found;
    }
    if holds(low) {
        return Some(low);
    }
    let mut at = low;
    let mut stride = 1_000_000_000;
    while stride > 0 {
        while at + stride <= high && !holds(at + stride) {
            at += stride;
        }
        stride /= 10;
    }
    if at == high {
        None
    } else {
        Some(at + 1)
    }
}
