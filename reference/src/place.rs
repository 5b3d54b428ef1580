//! Directions, wavelengths and directed wavelength places.

use std::fmt;

#[derive(Clone, Copy, PartialEq, Eq, PartialOrd, Ord, Debug)]
pub enum Direction {
    Clockwise,
    Counterclockwise,
}

impl Direction {
    pub fn other(self) -> Direction {
        match self {
            Direction::Clockwise => Direction::Counterclockwise,
            Direction::Counterclockwise => Direction::Clockwise,
        }
    }
}

impl fmt::Display for Direction {
    fn fmt(&self, f: &mut fmt::Formatter) -> fmt::Result {
        f.write_str(match self {
            Direction::Clockwise => "clockwise",
            Direction::Counterclockwise => "counterclockwise",
        })
    }
}

/// A wavelength number, counted within one direction.
#[derive(Clone, Copy, PartialEq, Eq, PartialOrd, Ord, Debug)]
pub struct Wavelength(pub u8);

/// A directed wavelength number, counted over both directions.
#[derive(Clone, Copy, PartialEq, Eq, PartialOrd, Ord, Debug, Default)]
pub struct Place(pub u8);

impl Wavelength {
    /// Place 2 × w clockwise, 2 × w + 1 counterclockwise.
    pub fn place(self, direction: Direction) -> Place {
        match direction {
            Direction::Clockwise => Place(2 * self.0),
            Direction::Counterclockwise => Place(2 * self.0 + 1),
        }
    }
}

impl Place {
    pub fn direction(self) -> Direction {
        match self.0 % 2 {
            0 => Direction::Clockwise,
            _ => Direction::Counterclockwise,
        }
    }

    pub fn index(self) -> usize {
        usize::from(self.0)
    }
}

#[cfg(test)]
mod tests {
    use super::*;

    #[test]
    fn wavelength_one_is_places_two_and_three() {
        assert_eq!(Wavelength(1).place(Direction::Clockwise), Place(2));
        assert_eq!(Wavelength(1).place(Direction::Counterclockwise), Place(3));
        assert_eq!(Place(2).direction(), Direction::Clockwise);
        assert_eq!(Place(3).direction(), Direction::Counterclockwise);
    }
}
