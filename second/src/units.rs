//! Numbers with their units, so that none can be mistaken for another.

use std::cmp::Ordering;
use std::fmt;
use std::iter::Sum;
use std::ops::{Add, AddAssign, Mul, Neg, Sub, SubAssign};

macro_rules! quantity {
    ($(#[$about:meta])* $name:ident) => {
        $(#[$about])*
        #[derive(Clone, Copy, Debug, Default, PartialEq, Eq, PartialOrd, Ord)]
        pub struct $name(pub i64);

        impl $name {
            pub const ZERO: Self = $name(0);

            pub fn abs(self) -> Self {
                $name(self.0.abs())
            }
        }

        impl Add for $name {
            type Output = Self;

            fn add(self, other: Self) -> Self {
                $name(self.0 + other.0)
            }
        }

        impl AddAssign for $name {
            fn add_assign(&mut self, other: Self) {
                *self = *self + other;
            }
        }

        impl Sub for $name {
            type Output = Self;

            fn sub(self, other: Self) -> Self {
                $name(self.0 - other.0)
            }
        }

        impl SubAssign for $name {
            fn sub_assign(&mut self, other: Self) {
                *self = *self - other;
            }
        }

        impl Neg for $name {
            type Output = Self;

            fn neg(self) -> Self {
                $name(-self.0)
            }
        }

        impl Sum for $name {
            fn sum<I: Iterator<Item = Self>>(quantities: I) -> Self {
                $name(quantities.map(|quantity| quantity.0).sum())
            }
        }

        impl fmt::Display for $name {
            fn fmt(&self, f: &mut fmt::Formatter) -> fmt::Result {
                self.0.fmt(f)
            }
        }
    };
}

quantity!(
    /// Tenths of a MW.
    Power
);
quantity!(
    /// Ten-thousandths.
    Factor
);
quantity!(
    /// Powers times factors: a tenth of a MW by a ten-thousandth is 10 W.
    TensOfWatts
);
quantity!(
    /// Flows.
    Watts
);
quantity!(
    /// Flows in ten-thousandths of a watt.
    FineWatts
);
quantity!(
    /// Quarters of a tenth of a MW.
    QuarterPower
);
quantity!(
    /// Flows in quarters of a watt.
    QuarterWatts
);
quantity!(
    /// What a rounded share leaves: watts × tenths of a MW.
    Remainder
);
quantity!(Seconds);
quantity!(
    /// Cents per MWh.
    Price
);
quantity!(
    /// Thousandths of a cent.
    Amount
);

/// Watts in a tenth of a MW.
const WATTS_PER_POWER: i64 = 100_000;
/// Ten-thousandths in one.
pub const WHOLE_FACTOR: i64 = 10_000;
/// Quarters in one.
pub const QUARTERS: i64 = 4;
/// Watts × cents per MWh × seconds in a thousandth of a cent.
pub const AMOUNT_DIVISOR: i64 = 3_600_000;

/// The whole number nearest to numerator / divisor, the even one of two that are
/// equally near, and what it leaves of the numerator. The divisor is above zero.
pub fn rounded_quotient(numerator: i64, divisor: i64) -> (i64, i64) {
    let (below, rest) = (numerator.div_euclid(divisor), numerator.rem_euclid(divisor));
    // A rest is held against what it lacks of the divisor: doubled it might not fit.
    let up = match rest.cmp(&(divisor - rest)) {
        Ordering::Less => false,
        Ordering::Equal => below % 2 != 0,
        Ordering::Greater => true,
    };
    if up {
        (below + 1, rest - divisor)
    } else {
        (below, rest)
    }
}

impl Power {
    pub fn watts(self) -> Watts {
        Watts(self.0 * WATTS_PER_POWER)
    }

    pub fn in_quarters(self) -> QuarterPower {
        QuarterPower(self.0 * QUARTERS)
    }

    /// One of four equal shares.
    pub fn quarter(self) -> QuarterPower {
        QuarterPower(self.0)
    }
}

impl Mul<Factor> for Power {
    type Output = TensOfWatts;

    fn mul(self, factor: Factor) -> TensOfWatts {
        TensOfWatts(self.0 * factor.0)
    }
}

impl TensOfWatts {
    pub fn watts(self) -> Watts {
        Watts(self.0 * (WATTS_PER_POWER / WHOLE_FACTOR))
    }
}

impl Mul<Factor> for QuarterPower {
    type Output = QuarterWatts;

    fn mul(self, factor: Factor) -> QuarterWatts {
        QuarterWatts((Power(self.0) * factor).watts().0)
    }
}

impl QuarterWatts {
    pub fn rounded(self) -> Watts {
        Watts(rounded_quotient(self.0, QUARTERS).0)
    }
}

impl Mul<Factor> for Watts {
    type Output = FineWatts;

    fn mul(self, factor: Factor) -> FineWatts {
        FineWatts(self.0 * factor.0)
    }
}

impl FineWatts {
    pub fn rounded(self) -> Watts {
        Watts(rounded_quotient(self.0, WHOLE_FACTOR).0)
    }
}

impl Watts {
    /// The rounded quotient of these watts × a part by the whole, and its remainder.
    pub fn share(self, part: Power, whole: Power) -> (Watts, Remainder) {
        let (quotient, remainder) = rounded_quotient(self.0 * part.0, whole.0);
        (Watts(quotient), Remainder(remainder))
    }

    /// What these watts cost at a price for so long.
    pub fn cost(self, price: Price, seconds: Seconds) -> Amount {
        Amount(rounded_quotient(self.0 * price.0 * seconds.0, AMOUNT_DIVISOR).0)
    }
}
