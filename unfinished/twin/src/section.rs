//! A section: its fibres and load, what an ask answers, and the walk.

use crate::law::{first_where, numbered, refuse, Law, Refusal};

#[derive(Clone, Copy, Debug)]
pub struct Fibre {
    pub depth: i128,
    pub area: i128,
    pub material: i64,
    pub initial: i128,
}

#[derive(Clone, Copy, Debug, PartialEq, Eq)]
pub struct Ends {
    pub first: i128,
    pub last: i128,
    pub first_moment: i128,
    pub last_moment: i128,
}

#[derive(Clone, Debug, PartialEq, Eq)]
pub enum State {
    Draft,
    Walking(i128),
    Ended(i128, Refusal),
}

#[derive(Clone, Debug, PartialEq, Eq)]
pub struct Outcome {
    pub curvature: i128,
    pub ends: Ends,
    pub cause: Refusal,
}

#[derive(Clone, Debug)]
pub struct Section {
    pub kit: Vec<Law>,
    pub fibres: Vec<Fibre>,
    pub load: i128,
    pub depth: i128,
    pub state: State,
}

fn out_of<T>(figures: &[(i64, i64, i64)], number: u8, ok: T) -> Result<T, Refusal> {
    match figures.iter().position(|(least, x, most)| x < least || most < x) {
        Some(place) => refuse(number, &[place as i64]),
        None => Ok(ok),
    }
}

impl Section {
    pub fn new(kit: Vec<Law>) -> Section {
        Section { kit, fibres: Vec::new(), load: 0, depth: 0, state: State::Draft }
    }

    fn need_draft(&self) -> Result<(), Refusal> {
        if self.state == State::Draft {
            Ok(())
        } else {
            refuse(5, &[])
        }
    }

    pub fn put(&mut self, depth: i64, area: i64, material: i64, initial: i64) -> Result<usize, Refusal> {
        self.need_draft()?;
        if self.fibres.len() >= 512 {
            return refuse(6, &[]);
        }
        let figures = [(0, depth, 4_096), (1, area, 2_000_000), (-100_000_000, initial, 100_000_000)];
        out_of(&figures, 7, ())?;
        if numbered(&self.kit, material).is_none() {
            return refuse(8, &[]);
        }
        self.fibres.push(Fibre { depth: depth as i128, area: area as i128, material, initial: initial as i128 });
        Ok(self.fibres.len() - 1)
    }

    pub fn take(&mut self, position: i64) -> Result<(), Refusal> {
        self.need_draft()?;
        if position < 0 || position >= self.fibres.len() as i64 {
            return refuse(9, &[position]);
        }
        self.fibres.remove(position as usize);
        Ok(())
    }

    pub fn set_load(&mut self, load: i64, depth: i64) -> Result<(), Refusal> {
        self.need_draft()?;
        let most = 400_000_000_000_000;
        out_of(&[(-most, load, most), (0, depth, 4_096)], 10, ())?;
        (self.load, self.depth) = (load as i128, depth as i128);
        Ok(())
    }

    fn law(&self, fibre: &Fibre) -> &Law {
        numbered(&self.kit, fibre.material).expect("every fibre has a law")
    }

    fn strain(curvature: i128, top: i128, fibre: &Fibre) -> i128 {
        top + curvature * fibre.depth + fibre.initial
    }

    pub fn force(&self, curvature: i128, top: i128) -> i128 {
        self.fibres.iter().map(|f| f.area * self.law(f).stress(Self::strain(curvature, top, f))).sum()
    }

    pub fn moment(&self, curvature: i128, top: i128) -> i128 {
        let turn = |f: &Fibre| f.area * self.law(f).stress(Self::strain(curvature, top, f)) * f.depth;
        self.fibres.iter().map(turn).sum::<i128>() - self.load * self.depth
    }

    fn admitted(&self, curvature: i128, top: i128) -> bool {
        (-500_000_000..=500_000_000).contains(&top)
            && self.fibres.iter().all(|f| self.law(f).inside(Self::strain(curvature, top, f)))
    }

    /// The top strain at which each fibre meets its compression limit, and its tension limit.
    fn meets(&self, curvature: i128) -> (Vec<i128>, Vec<i128>) {
        let at = |f: &Fibre| curvature * f.depth + f.initial;
        let low = self.fibres.iter().map(|f| -self.law(f).compression - at(f)).collect();
        let high = self.fibres.iter().map(|f| self.law(f).tension - at(f)).collect();
        (low, high)
    }

    pub fn ask(&self, curvature: i128) -> Result<Ends, Refusal> {
        if curvature > 65_535 {
            return refuse(11, &[]);
        }
        if self.fibres.is_empty() {
            return refuse(12, &[]);
        }
        let (lows, highs) = self.meets(curvature);
        let (low, high) = (*lows.iter().max().unwrap(), *highs.iter().min().unwrap());
        let compressed = lows.iter().position(|x| *x == low).unwrap() as i64;
        let stretched = highs.iter().position(|x| *x == high).unwrap() as i64;
        if low > high {
            return refuse(13, &[compressed, stretched]);
        }
        assert!(self.admitted(curvature, low) && self.admitted(curvature, high));
        assert!(!self.admitted(curvature, low - 1) && !self.admitted(curvature, high + 1));
        let force = |top| self.force(curvature, top);
        if force(low) > self.load {
            return refuse(14, &[compressed]);
        }
        if force(high) < self.load {
            return refuse(15, &[stretched]);
        }
        let first = first_where(low, high, |top| force(top) >= self.load).unwrap();
        let last = match first_where(low, high, |top| force(top) > self.load) {
            Some(past) => past - 1,
            None => high,
        };
        let balanced = force(first) == self.load;
        assert!(if balanced { first <= last } else { first == last + 1 });
        Ok(Ends {
            first,
            last,
            first_moment: self.moment(curvature, first),
            last_moment: self.moment(curvature, last),
        })
    }

    pub fn start(&mut self) -> Result<State, Refusal> {
        self.need_draft()?;
        self.ask(0)?;
        self.state = State::Walking(0);
        Ok(self.state.clone())
    }

    pub fn step(&mut self) -> Result<State, Refusal> {
        let State::Walking(curvature) = self.state else {
            return refuse(5, &[]);
        };
        self.state = match self.ask(curvature + 1) {
            Ok(_) => State::Walking(curvature + 1),
            Err(cause) => State::Ended(curvature, cause),
        };
        Ok(self.state.clone())
    }

    pub fn reopen(&mut self) -> Result<State, Refusal> {
        if self.state == State::Draft {
            return refuse(5, &[]);
        }
        self.state = State::Draft;
        Ok(State::Draft)
    }

    pub fn result(&self) -> Result<Outcome, Refusal> {
        match &self.state {
            State::Ended(curvature, cause) => {
                Ok(Outcome { curvature: *curvature, ends: self.ask(*curvature)?, cause: cause.clone() })
            }
            _ => refuse(5, &[]),
        }
    }

    pub fn walk(&mut self) -> Result<Outcome, Refusal> {
        if self.state == State::Draft {
            self.start()?;
        }
        while let State::Walking(_) = self.state {
            self.step()?;
        }
        self.result()
    }
}
