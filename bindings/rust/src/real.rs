//! Real numbers of headers: wavelengths, distances and angles.

use crate::codes::Unit;
use std::fmt;

/// A real number of a header, by its unit.
///
/// In a file it is an optional sign; digits with at most one point and at least one digit; optionally `e` and a whole number; optionally
/// `_m`, `_deg` or `_rad`. The digits without the point are at most 9,007,199,254,740,992, and the power of ten, which is the number
/// after `e` less the number of digits after the point, is from -22 to 22. The value is the 64-bit float nearest to the written number,
/// rounded once; `-0` is minus zero. Degrees are not converted.
///
/// It is shown with the shortest decimal that is read as the same 64-bit float, and with its unit as a file has it. That decimal may lie
/// outside the bounds: `10e22` is shown as `1e23`.
///
/// ```
/// use edf::{Real, Unit};
/// let angle = Real::Degrees(32.5);
/// assert_eq!((angle.value(), angle.unit(), angle.to_string()), (32.5, Some(Unit::Degrees), "32.5_deg".to_string()));
/// assert_eq!(Real::Number(1.5e-10).to_string(), "1.5e-10");
/// assert_eq!(Real::Number(-0.0).to_string(), "-0");
/// ```
#[derive(Clone, Copy, Debug, PartialEq)]
#[allow(missing_docs)]
pub enum Real {
    /// A bare number, written without a unit.
    Number(f64),
    Metres(f64),
    Degrees(f64),
    Radians(f64),
}

impl Real {
    pub(crate) fn of(unit: u8, value: f64) -> Real {
        match unit {
            0 => Real::Number(value),
            1 => Real::Metres(value),
            2 => Real::Degrees(value),
            3 => Real::Radians(value),
            _ => unreachable!("the library answers 0 to 3"),
        }
    }

    /// Its value, in its unit.
    pub fn value(self) -> f64 {
        match self {
            Real::Number(value) | Real::Metres(value) | Real::Degrees(value) | Real::Radians(value) => value,
        }
    }

    /// Its unit; none for a bare number.
    pub fn unit(self) -> Option<Unit> {
        match self {
            Real::Number(_) => None,
            Real::Metres(_) => Some(Unit::Metres),
            Real::Degrees(_) => Some(Unit::Degrees),
            Real::Radians(_) => Some(Unit::Radians),
        }
    }
}

impl fmt::Display for Real {
    fn fmt(&self, f: &mut fmt::Formatter) -> fmt::Result {
        let number = shortest(self.value());
        match self.unit() {
            None => f.pad(&number),
            Some(unit) => f.pad(&format!("{number}_{unit}")),
        }
    }
}

/// The fewest digits that are read as the same float: without `e` from 0.00001 up to 10,000,000,000,000,000, and for zero.
fn shortest(value: f64) -> String {
    if value == 0.0 || (1e-5..1e16).contains(&value.abs()) {
        format!("{value}")
    } else {
        format!("{value:e}")
    }
}
