//! What the console held at each number, what the desk shows, and whether they agree.

use power_policy::*;

use crate::link::{Kind, Letter};

/// Showing n, a follower holds packets up to n plus this.
const REACH: u32 = 8;

/// What is held or shown at a number.
#[derive(Clone, Copy, Debug, Default, PartialEq, Eq)]
pub struct Display {
    /// The port and the bytes of the capability.
    pub consumer: Option<(u8, [u8; 5])>,
    pub unconstrained: bool,
    pub available: u8,
    pub tracked: u16,
}

impl Display {
    /// What a service holds, and its number, by its image (docs/STATE.md).
    pub fn held(service: &Service) -> (u32, Self) {
        let image = service.image();
        let number = u32::from_le_bytes([image[20], image[21], image[22], image[23]]);
        let capability = [image[26], image[27], image[28], image[29], image[30]];
        let display = Self {
            consumer: (image[24] == 1).then_some((image[25], capability)),
            unconstrained: image[31] == 1,
            available: image[32],
            tracked: u16::from_le_bytes([image[33], image[34]]),
        };
        (number, display)
    }

    /// What a follower shows, with its number.
    fn shown(follower: &Follower, figures: Figures) -> Result<(u32, Self), Error> {
        let display = Self {
            consumer: follower
                .consumer()?
                .map(|consumer| (consumer.port, consumer.capability.encode())),
            unconstrained: figures.unconstrained,
            available: figures.available,
            tracked: follower.tracked()?.0,
        };
        Ok((figures.number, display))
    }

    /// The consumer's port and mW.
    pub fn consumer(&self) -> Option<(u8, u32)> {
        self.consumer.map(|(port, [v0, v1, a0, a1, _])| {
            let voltage_mv = u16::from_le_bytes([v0, v1]);
            let current_ma = u16::from_le_bytes([a0, a1]);
            let power = PowerCapability {
                voltage_mv,
                current_ma,
            };
            (port, power.max_power_mw())
        })
    }
}

#[derive(Clone, Copy, Debug, PartialEq, Eq)]
pub enum Desk {
    Lost,
    Level(u32, Display),
    Waiting(u32, Display),
}

impl Desk {
    pub fn of(follower: &Follower) -> Result<Self, Error> {
        Ok(match follower.shown()? {
            Shown::Lost => Self::Lost,
            Shown::Level(figures) => {
                let (number, display) = Display::shown(follower, figures)?;
                Self::Level(number, display)
            }
            Shown::Waiting(figures) => {
                let (number, display) = Display::shown(follower, figures)?;
                Self::Waiting(number, display)
            }
        })
    }

    /// The number and what is shown, if it is not lost.
    pub fn showing(&self) -> Option<(u32, Display)> {
        match *self {
            Self::Lost => None,
            Self::Level(number, display) | Self::Waiting(number, display) => {
                Some((number, display))
            }
        }
    }
}

/// What the console held, by number, and whether the event of that number failed.
pub struct History {
    held: Vec<(Display, bool)>,
}

#[derive(Clone, Copy, Debug, PartialEq, Eq)]
pub enum Mark {
    /// The desk shows nothing.
    Lost,
    /// It shows the console's number, and what the console holds.
    Same,
    /// It shows an earlier number, and what the console held then.
    Behind,
    /// It shows something that the console did not hold at that number.
    Other,
}

impl History {
    pub fn new(fresh: Display) -> Self {
        Self {
            held: vec![(fresh, false)],
        }
    }

    /// Adds the event of the next number.
    pub fn close(&mut self, display: Display, failed: bool) {
        self.held.push((display, failed));
    }

    pub fn failed(&self) -> usize {
        self.held.iter().filter(|(_, failed)| *failed).count()
    }

    pub fn mark(&self, desk: &Desk) -> Mark {
        let Some((number, shown)) = desk.showing() else {
            return Mark::Lost;
        };
        let number = number as usize;
        match self.held.get(number) {
            Some((held, _)) if *held == shown => {
                if number + 1 == self.held.len() {
                    Mark::Same
                } else {
                    Mark::Behind
                }
            }
            _ => Mark::Other,
        }
    }

    /// Why a desk that showed `number` is lost after this letter.
    pub fn why_lost(&self, number: u32, letter: &Letter) -> Why {
        if letter.kind == Kind::Event && letter.number > number.saturating_add(REACH) {
            return Why::TooFar {
                shown: number,
                came: letter.number,
            };
        }
        // Packets are applied in turn up to one that failed.
        let from = match letter.kind {
            Kind::Event => number,
            Kind::Picture => letter.number,
        };
        let mut above = (0..).zip(&self.held).skip(from as usize + 1);
        above
            .find(|(_, (_, failed))| *failed)
            .map_or(Why::Unknown, |(number, _)| Why::Failed { number })
    }
}

/// Why a desk is lost.
#[derive(Clone, Copy, Debug, PartialEq, Eq)]
pub enum Why {
    /// The packet of an event that failed: its notices are not all that it changed.
    Failed {
        number: u32,
    },
    /// A packet over what a follower holds.
    TooFar {
        shown: u32,
        came: u32,
    },
    Unknown,
}

impl Why {
    pub fn short(self) -> String {
        match self {
            Self::Failed { number } => format!("e{number} failed"),
            Self::TooFar { shown, came } => format!("e{came} over {shown}+{REACH}"),
            Self::Unknown => "not explained".to_string(),
        }
    }

    pub fn long(self) -> String {
        match self {
            Self::Failed { number } => format!("event {number} had failed"),
            Self::TooFar { shown, came } => {
                format!("e{came} came while it showed {shown}, over {REACH} ahead")
            }
            Self::Unknown => "not explained".to_string(),
        }
    }
}

#[cfg(test)]
mod tests {
    use super::*;

    #[test]
    fn other_content_is_found() {
        let other = [
            Display {
                consumer: Some((1, [0; 5])),
                ..Display::default()
            },
            Display {
                unconstrained: true,
                ..Display::default()
            },
            Display {
                available: 1,
                ..Display::default()
            },
            Display {
                tracked: 1,
                ..Display::default()
            },
        ];
        let mut history = History::new(Display::default());
        history.close(other[0], false);
        assert_eq!(history.mark(&Desk::Lost), Mark::Lost);
        assert_eq!(
            history.mark(&Desk::Level(0, Display::default())),
            Mark::Behind
        );
        assert_eq!(history.mark(&Desk::Waiting(1, other[0])), Mark::Same);
        for display in other {
            assert_eq!(history.mark(&Desk::Level(0, display)), Mark::Other);
        }
        assert_eq!(history.mark(&Desk::Level(2, other[0])), Mark::Other);
    }
}
