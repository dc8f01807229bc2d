//! A link that loses, repeats and reorders what it is given, as its seed has it.

/// Numbers drawn from a seed (SplitMix64).
struct Random(u64);

impl Random {
    fn next(&mut self) -> u64 {
        self.0 = self.0.wrapping_add(0x9E37_79B9_7F4A_7C15);
        let mut z = self.0;
        z = (z ^ z >> 30).wrapping_mul(0xBF58_476D_1CE4_E5B9);
        z = (z ^ z >> 27).wrapping_mul(0x94D0_49BB_1331_11EB);
        z ^ z >> 31
    }

    /// 0 to `limit` - 1.
    fn below(&mut self, limit: usize) -> usize {
        (self.next() % limit as u64) as usize
    }

    fn percent(&mut self, chance: usize) -> bool {
        self.below(100) < chance
    }
}

#[derive(Clone, Copy, Debug, PartialEq, Eq)]
pub enum Kind {
    Event,
    Picture,
}

/// A packet or picture on its way.
#[derive(Clone, Debug, PartialEq, Eq)]
pub struct Letter {
    pub kind: Kind,
    pub number: u32,
    pub bytes: Vec<u8>,
}

#[derive(Clone, Copy, Debug, PartialEq, Eq)]
pub enum Fate {
    Delivered,
    Lost,
    /// It comes some steps later.
    Delayed,
}

/// What a letter that was on its way is when it comes.
#[derive(Clone, Copy, Debug, PartialEq, Eq)]
pub enum Arrival {
    Late,
    Again,
}

pub struct Link {
    random: Random,
    /// With the step at which each comes.
    under_way: Vec<(usize, Arrival, Letter)>,
}

impl Link {
    /// In percent, and in steps.
    const LOSS: usize = 20;
    const DELAY: usize = 25;
    const REPEAT: usize = 20;
    const LATEST: usize = 4;

    pub fn new(seed: u64) -> Self {
        Self {
            random: Random(seed),
            under_way: Vec::new(),
        }
    }

    /// Gives a letter to the link. One that is not lost may come a second time.
    pub fn send(&mut self, step: usize, letter: &Letter) -> Fate {
        if self.random.percent(Self::LOSS) {
            return Fate::Lost;
        }
        let mut due = step;
        if self.random.percent(Self::DELAY) {
            due += self.some_steps();
            self.under_way.push((due, Arrival::Late, letter.clone()));
        }
        let fate = if due == step {
            Fate::Delivered
        } else {
            Fate::Delayed
        };
        if self.random.percent(Self::REPEAT) {
            due += self.some_steps();
            self.under_way.push((due, Arrival::Again, letter.clone()));
        }
        fate
    }

    fn some_steps(&mut self) -> usize {
        1 + self.random.below(Self::LATEST)
    }

    /// One of those that come at this step, in any order.
    pub fn arrival(&mut self, step: usize) -> Option<(Arrival, Letter)> {
        let due: Vec<usize> = (0..self.under_way.len())
            .filter(|at| self.under_way[*at].0 <= step)
            .collect();
        if due.is_empty() {
            return None;
        }
        let at = due[self.random.below(due.len())];
        let (_, arrival, letter) = self.under_way.remove(at);
        Some((arrival, letter))
    }

    pub fn is_empty(&self) -> bool {
        self.under_way.is_empty()
    }
}
