//! Whole hours, as both sides answer.

use std::fmt;

use second::names::NameField;

/// An hour, grown from an empty one or any value at all.
#[derive(Clone, Copy, PartialEq, Eq)]
#[repr(C)]
pub struct Hour {
    pub amounts: [i64; 60],
    pub seconds: [u16; 60],
    pub count: usize,
    pub name: NameField,
    pub monitoring_rto: u8,
}

impl Hour {
    pub const EMPTY: Hour = Hour {
        amounts: [0; 60],
        seconds: [0; 60],
        count: 0,
        name: [0; 16],
        monitoring_rto: 0,
    };
}

/// Cells as amount and seconds, up to the last that is not zero.
impl fmt::Debug for Hour {
    fn fmt(&self, f: &mut fmt::Formatter) -> fmt::Result {
        let cells: Vec<(i64, u16)> = self.amounts.into_iter().zip(self.seconds).collect();
        let used = cells.iter().rposition(|cell| *cell != (0, 0));
        f.debug_struct("Hour")
            .field("count", &self.count)
            .field("name", &self.name.escape_ascii().to_string())
            .field("monitoring_rto", &self.monitoring_rto)
            .field("cells", &&cells[..used.map_or(0, |last| last + 1)])
            .finish()
    }
}

/// 0 and the hour with the interval, or the refusal and the hour as it was.
#[derive(Clone, Copy, Debug, PartialEq, Eq)]
#[repr(C)]
pub struct Changed {
    pub refusal: u8,
    pub hour: Hour,
}

#[derive(Clone, Copy, Debug, Default, PartialEq, Eq)]
#[repr(C)]
pub struct HourTotals {
    pub seconds: u32,
    pub amount: i64,
    pub nyiso: i64,
    pub pjm: i64,
}

pub trait Hours {
    fn open(&self) -> Hour;
    fn add(&self, hour: &Hour, sheet: &[u8], list: &[u8]) -> Changed;
    fn totals(&self, hour: &Hour) -> HourTotals;
}

/// Hours by the second implementation, or by a copy of its crate.
#[macro_export]
macro_rules! hours {
    ($name:ident, $second:ident) => {
        impl $name {
            fn told(hour: &$second::Hour) -> $crate::sides::hours::Hour {
                $crate::sides::hours::Hour {
                    amounts: hour.amounts.map(|amount| amount.0),
                    seconds: hour.seconds.map(|seconds| seconds.0 as u16),
                    count: hour.count,
                    name: hour.name,
                    monitoring_rto: hour.monitoring,
                }
            }

            fn taken(hour: &$crate::sides::hours::Hour) -> $second::Hour {
                $second::Hour {
                    amounts: hour.amounts.map($second::units::Amount),
                    seconds: hour.seconds.map(|it| $second::units::Seconds(it.into())),
                    count: hour.count,
                    name: hour.name,
                    monitoring: hour.monitoring_rto,
                }
            }
        }

        impl $crate::sides::hours::Hours for $name {
            fn open(&self) -> $crate::sides::hours::Hour {
                Self::told(&$second::Hour::open())
            }

            fn add(
                &self,
                hour: &$crate::sides::hours::Hour,
                sheet: &[u8],
                list: &[u8],
            ) -> $crate::sides::hours::Changed {
                let mut hour = Self::taken(hour);
                let answer = hour.add(sheet, list);
                $crate::sides::hours::Changed {
                    refusal: answer.map_or_else($second::Refusal::number, |_| 0),
                    hour: Self::told(&hour),
                }
            }

            fn totals(
                &self,
                hour: &$crate::sides::hours::Hour,
            ) -> $crate::sides::hours::HourTotals {
                let totals = Self::taken(hour).totals();
                $crate::sides::hours::HourTotals {
                    seconds: totals.seconds.0 as u32,
                    amount: totals.amount.0,
                    nyiso: totals.nyiso.0,
                    pjm: totals.pjm.0,
                }
            }
        }
    };
}
