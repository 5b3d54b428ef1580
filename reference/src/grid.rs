//! Frequency plans on the grid of ITU-T G.694.1. Frequencies and spacings count 100 MHz.

use crate::place::Wavelength;
use crate::refusal::Refusal;

/// 193.1 THz, to which the grid is anchored: n is 0 there.
pub const ANCHOR: u32 = 1_931_000;

/// 12.5, 25, 50 and 100 GHz.
pub const SPACINGS: [u32; 4] = [125, 250, 500, 1000];

/// How far from 0 the starting n may lie, either way.
pub const START_MOST: u32 = 200;

/// The wavelengths of a plan, which are 0 to 63 whatever a ring's W is.
pub const WAVELENGTHS: usize = 64;

/// A plan as it is named, good or not.
#[derive(Clone, Copy, PartialEq, Eq, Debug)]
pub struct FrequencyPlan {
    pub spacing: u32,
    /// The n at which wavelength 0 stands.
    pub start: i32,
}

impl FrequencyPlan {
    /// The frequency at which the wavelength stands.
    pub fn frequency(self, wavelength: u32) -> Result<u32, Refusal> {
        let points = self.points()?;
        points.get(wavelength as usize).copied().ok_or(Refusal::NoWavelength)
    }

    /// The wavelength that stands at the frequency. A search has no division that could round.
    pub fn wavelength(self, frequency: u32) -> Result<Wavelength, Refusal> {
        let points = self.points()?;
        let found = points.iter().position(|&point| point == frequency);
        found.map(|index| Wavelength(index as u8)).ok_or(Refusal::OffPlan)
    }

    /// The frequencies of wavelengths 0 to 63.
    pub fn points(self) -> Result<[u32; WAVELENGTHS], Refusal> {
        if !SPACINGS.contains(&self.spacing) {
            return Err(Refusal::NoSpacing);
        }
        if !self.has_good_start() {
            return Err(Refusal::NoStart);
        }
        let first = self.first_point();
        Ok(std::array::from_fn(|wavelength| first + wavelength as u32 * self.spacing))
    }

    pub fn has_good_start(self) -> bool {
        self.start.unsigned_abs() <= START_MOST
    }

    /// The starting n says how many spacings below the anchor or above it.
    fn first_point(self) -> u32 {
        let distance = self.start.unsigned_abs() * self.spacing;
        if self.start < 0 {
            ANCHOR - distance
        } else {
            ANCHOR + distance
        }
    }
}
