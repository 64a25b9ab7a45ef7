//! The same search as the program's, in straightforward Rust, to time the program against.

/// A stress law of one material: a straight line with two plateaus, and its limits.
#[derive(Clone, Copy)]
pub struct Law {
    pub modulus: u32,
    pub compression_plateau: u32,
    pub tension_plateau: u32,
    pub compression: u32,
    pub tension: u32,
}

impl Law {
    fn stress(&self, strain: i32) -> i32 {
        let elastic = self.modulus as i64 * strain as i64 / 1_000_000_000;
        elastic.min(self.tension_plateau as i64).max(-(self.compression_plateau as i64)) as i32
    }
}

#[derive(Clone, Copy)]
pub struct Fibre {
    pub depth: u32,
    pub area: u32,
    pub material: u8,
    pub initial: i32,
}

pub struct Section {
    pub kit: Vec<Law>,
    pub fibres: Vec<Fibre>,
    pub load: i64,
    pub load_depth: u32,
    /// How many forces were summed.
    pub forces: std::cell::Cell<u64>,
}

#[derive(Debug, PartialEq, Eq)]
pub struct Ends {
    pub first: i32,
    pub last: i32,
    pub first_moment: i64,
    pub last_moment: i64,
}

impl Section {
    fn strain(curvature: u32, top: i32, fibre: &Fibre) -> i32 {
        top + (curvature * fibre.depth) as i32 + fibre.initial
    }

    fn pull(&self, curvature: u32, top: i32, fibre: &Fibre) -> i64 {
        let law = &self.kit[fibre.material as usize];
        fibre.area as i64 * law.stress(Self::strain(curvature, top, fibre)) as i64
    }

    fn force(&self, curvature: u32, top: i32) -> i64 {
        self.forces.set(self.forces.get() + 1);
        let mut sum = 0;
        for fibre in &self.fibres {
            sum += self.pull(curvature, top, fibre);
        }
        sum
    }

    fn moment(&self, curvature: u32, top: i32) -> i64 {
        let mut sum = 0;
        for fibre in &self.fibres {
            sum += self.pull(curvature, top, fibre) * fibre.depth as i64;
        }
        sum - self.load * self.load_depth as i64
    }

    fn range(&self, curvature: u32) -> (i32, i32) {
        let (mut low, mut high) = (i32::MIN, i32::MAX);
        for fibre in &self.fibres {
            let law = &self.kit[fibre.material as usize];
            let moved = (curvature * fibre.depth) as i32 + fibre.initial;
            low = low.max(-(law.compression as i32) - moved);
            high = high.min(law.tension as i32 - moved);
        }
        (low, high)
    }

    /// The least top strain of the range whose force is not below a target.
    fn least(&self, curvature: u32, low: i32, high: i32, target: i64) -> Option<i32> {
        if self.force(curvature, high) < target {
            return None;
        }
        let (mut bottom, mut top) = (low, high);
        while bottom < top {
            let middle = bottom + (top - bottom) / 2;
            if self.force(curvature, middle) < target {
                bottom = middle + 1;
            } else {
                top = middle;
            }
        }
        Some(top)
    }

    fn greatest(&self, curvature: u32, low: i32, high: i32, target: i64) -> Option<i32> {
        match self.least(curvature, low, high, target + 1) {
            None => Some(high),
            Some(past) if past == low => None,
            Some(past) => Some(past - 1),
        }
    }

    pub fn ask(&self, curvature: u32) -> Option<Ends> {
        if curvature > 65_535 || self.fibres.is_empty() {
            return None;
        }
        let (low, high) = self.range(curvature);
        if high < low {
            return None;
        }
        let last = self.greatest(curvature, low, high, self.load)?;
        let first = self.least(curvature, low, high, self.load)?;
        Some(Ends {
            first,
            last,
            first_moment: self.moment(curvature, first),
            last_moment: self.moment(curvature, last),
        })
    }

    /// The last curvature before the first that is not answered, and the ends there.
    pub fn walk(&self) -> Option<(u32, Ends)> {
        let mut at = (0, self.ask(0)?);
        while let Some(ends) = self.ask(at.0 + 1) {
            at = (at.0 + 1, ends);
        }
        Some(at)
    }
}
