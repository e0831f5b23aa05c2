//! The codes that are measured, and rows with each amount of damage.

use second::call::RawCode;
use second::generate::damage;
use second::random::Random;
use second::reference::code::{Code, LONGEST_ROW};
use second::reference::rows::row_of;

/// How many rows each figure is taken over.
const ROWS: usize = 8;
const SEED: u64 = 20;

/// One code size; k is half of n.
#[derive(Clone, Copy, Debug, PartialEq, Eq)]
pub struct Setting {
    pub m: usize,
    pub r: usize,
    pub n: usize,
}

impl Setting {
    pub fn k(self) -> usize {
        self.n / 2
    }

    /// The setting whose ratios are asked for.
    pub fn is_asked_for(self) -> bool {
        self == Setting { m: 8, r: 1, n: 128 }
    }

    /// Whether libfec has a code of this size.
    pub fn fits_fec(self) -> bool {
        (self.m, self.r) == (8, 1)
    }
}

/// Every code with n = 8, 32, 64, 128, 240 and r = 1, 2, 8 that exists: n / r points need a field that has them.
pub fn settings() -> Vec<Setting> {
    let mut settings = Vec::new();
    for m in [2, 4, 8] {
        for r in [1, 2, 8] {
            for n in [8, 32, 64, 128, LONGEST_ROW] {
                if n / r <= 1 << m {
                    settings.push(Setting { m, r, n });
                }
            }
        }
    }
    settings
}

#[derive(Clone, Copy, Debug, PartialEq, Eq)]
pub enum Damage {
    None,
    HalfRadius,
    FullRadius,
}

impl Damage {
    pub const ALL: [Damage; 3] = [Damage::None, Damage::HalfRadius, Damage::FullRadius];

    pub fn name(self) -> &'static str {
        match self {
            Damage::None => "none",
            Damage::HalfRadius => "half the radius",
            Damage::FullRadius => "the full radius",
        }
    }

    /// The total depth of damage for a radius.
    pub fn total(self, radius: usize) -> usize {
        match self {
            Damage::None => 0,
            Damage::HalfRadius => radius / 2,
            Damage::FullRadius => radius,
        }
    }
}

/// A code, a message, and its row after damage.
pub struct Sample {
    pub code: RawCode,
    pub message: Vec<u8>,
    pub row: Vec<u8>,
}

pub fn samples(setting: Setting, amount: Damage) -> Vec<Sample> {
    let mut random = Random::new(SEED);
    (0..ROWS)
        .map(|_| sample(&mut random, setting, amount))
        .collect()
}

fn sample(random: &mut Random, setting: Setting, amount: Damage) -> Sample {
    let Setting { m, r, n } = setting;
    let mut points: Vec<u8> = (0..1usize << m).map(|point| point as u8).collect();
    random.shuffle(&mut points);
    points.truncate(n / r);
    let code = Code::check(m, r, setting.k(), &points).expect("a code within the limits");
    let message = random.symbols(setting.k(), 1 << m);
    let mut row = row_of(&code, &message);
    let total = amount.total(code.radius());
    damage::damage(random, &code, &mut row, total);
    let code = RawCode {
        m,
        r,
        k: setting.k(),
        points,
    };
    Sample { code, message, row }
}
