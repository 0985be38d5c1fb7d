//! The two sides of the comparison answer the same questions, in plain numbers: what
//! a side says is compared as it stands, sensible or not.

pub mod drafts;
pub mod hours;

use second::names::NameField;

use drafts::Drafts;
use hours::Hours;

/// A buffer that is long enough for every listing.
pub const LISTING_ROOM: usize = 400;

/// A statement; a refused one has the number and zeros everywhere else.
#[derive(Clone, Copy, Debug, Default, PartialEq, Eq)]
#[repr(C)]
pub struct Figures {
    /// 0 on an accepted one.
    pub refusal: u8,
    pub name: NameField,
    /// 1 where the sheet has paths and a circulation, else 0.
    pub has_paths: u8,
    pub gtl: i64,
    pub first_remainder: i64,
    pub second_remainder: i64,
    pub parallel: i64,
    pub shadow: i64,
    pub common: i64,
    pub noncommon: i64,
    pub market: i64,
    pub settled: i64,
    pub entitlement: i64,
    pub price: i64,
    pub amount: i64,
    pub nyiso: i64,
    pub pjm: i64,
}

impl Figures {
    pub fn refused(refusal: u8) -> Self {
        Figures {
            refusal,
            ..Figures::default()
        }
    }
}

/// The statement after row 23, and the listing's length, 0 with a refusal.
#[derive(Clone, Copy, Debug, Default, PartialEq, Eq)]
#[repr(C)]
pub struct Printed {
    pub figures: Figures,
    pub length: usize,
}

/// Rows 1 to 13 and 28: the counts of a sheet that passes, or the number and place of the
/// offending record and zeros.
#[derive(Clone, Copy, Debug, Default, PartialEq, Eq)]
#[repr(C)]
pub struct ReadAnswer {
    pub refusal: u8,
    pub place: usize,
    pub zones: usize,
    pub units: usize,
    pub points: usize,
    pub pars: usize,
    pub factors: usize,
    pub paths: usize,
    pub circulations: usize,
}

/// Rows 14 and 15: the value in tenths of a MW, 0 with a refusal.
#[derive(Clone, Copy, Debug, Default, PartialEq, Eq)]
#[repr(C)]
pub struct EntitlementAnswer {
    pub refusal: u8,
    pub value: i64,
}

/// Refusal and reason by their numbers, 0 where there is none, and the part of the sheet
/// that holds the offending record.
#[derive(Clone, Copy, Debug, Default, PartialEq, Eq)]
#[repr(C)]
pub struct Explanation {
    pub refusal: u8,
    /// The flow paid on is 1 above, 2 below, 3 at the entitlement.
    pub reason: u8,
    pub from: usize,
    pub to: usize,
}

pub trait Side: Hours + Drafts {
    fn settle(&self, sheet: &[u8], list: &[u8]) -> Figures;
    fn report(&self, sheet: &[u8], list: &[u8], out: &mut [u8]) -> Printed;
    fn read(&self, sheet: &[u8]) -> ReadAnswer;
    fn entitlement(&self, list: &[u8], name: &NameField) -> EntitlementAnswer;
    fn explain(&self, sheet: &[u8], list: &[u8]) -> Explanation;
}

/// Rounded figures that are judged by the exact ones. For the flowgate and for each
/// PAR that is known: target, generation-to-load flow and both remainders.
#[derive(Clone, Debug)]
pub struct Rounded {
    pub targets: Vec<(usize, [i64; 3])>,
    pub market: i64,
    pub settled: i64,
    pub amount: i64,
    /// In tenths of a MW.
    pub entitlement: i64,
}

/// The side that the other is held against: it knows the exact figures too.
pub trait Reference: Side {
    /// Judges the accuracy of an accepted sheet's figures.
    fn judge(&self, sheet: &[u8], rounded: &Rounded) -> Result<(), String>;

    /// Judges the amount of an hour by its accepted sheets, each with its entitlement
    /// in tenths of a MW.
    fn judge_hour(&self, intervals: &[(&[u8], i64)], amount: i64) -> Result<(), String>;
}

pub struct Sides<'a> {
    pub second: &'a dyn Reference,
    pub tested: &'a dyn Side,
}

/// Any well-formed name.
pub const ANY_NAME: NameField = *b"?\0\0\0\0\0\0\0\0\0\0\0\0\0\0\0";

/// A type that answers by the second implementation, or by a copy of its crate.
#[macro_export]
macro_rules! reference {
    ($name:ident, $second:ident) => {
        #[derive(Default)]
        pub struct $name;

        impl $name {
            fn figures(
                answer: Result<$second::Statement, $second::Refusal>,
            ) -> $crate::sides::Figures {
                match answer {
                    Ok($second::Statement {
                        name,
                        flow,
                        settled,
                        has_paths,
                        entitlement,
                        payment,
                    }) => $crate::sides::Figures {
                        refusal: 0,
                        name: name.field(),
                        has_paths: has_paths.into(),
                        gtl: flow.generation_to_load.flow.0,
                        first_remainder: flow.generation_to_load.first_remainder.0,
                        second_remainder: flow.generation_to_load.second_remainder.0,
                        parallel: flow.parallel.0,
                        shadow: flow.shadow.0,
                        common: flow.common_redirect.0,
                        noncommon: flow.non_common_redirect.0,
                        market: flow.market.0,
                        settled: settled.0,
                        entitlement: entitlement.0,
                        price: payment.price.0,
                        amount: payment.amount.0,
                        nyiso: payment.nyiso.0,
                        pjm: payment.pjm.0,
                    },
                    Err(refusal) => $crate::sides::Figures::refused(refusal.number()),
                }
            }
        }

        impl $crate::sides::Side for $name {
            fn settle(&self, sheet: &[u8], list: &[u8]) -> $crate::sides::Figures {
                Self::figures($second::settle(sheet, list))
            }

            fn report(&self, sheet: &[u8], list: &[u8], out: &mut [u8]) -> $crate::sides::Printed {
                let answer = $second::report(sheet, list, out);
                $crate::sides::Printed {
                    figures: Self::figures(answer.map(|(statement, _)| statement)),
                    length: answer.map_or(0, |(_, length)| length),
                }
            }

            fn read(&self, sheet: &[u8]) -> $crate::sides::ReadAnswer {
                match $second::reader::read(sheet) {
                    Ok(sheet) => $crate::sides::ReadAnswer {
                        refusal: 0,
                        place: 0,
                        zones: sheet.zones.len(),
                        units: sheet.units.len(),
                        points: sheet.points.len(),
                        pars: sheet.pars.len(),
                        factors: sheet.factor_records.len(),
                        paths: sheet.lake.as_ref().map_or(0, |it| it.paths.len()),
                        circulations: sheet.lake.iter().count(),
                    },
                    Err(refused) => $crate::sides::ReadAnswer {
                        refusal: refused.refusal.number(),
                        place: refused.place,
                        ..$crate::sides::ReadAnswer::default()
                    },
                }
            }

            fn entitlement(
                &self,
                list: &[u8],
                name: &[u8; 16],
            ) -> $crate::sides::EntitlementAnswer {
                // A name that is not well formed stands in no list that passes row 14.
                let other = $second::Name::of($crate::sides::ANY_NAME).expect("it is a name");
                let sought = $second::Name::of(*name);
                let missing = Err($second::Refusal::NoEntitlement);
                let answer = $second::entitlement::entitlement(list, sought.unwrap_or(other))
                    .and_then(|value| sought.map_or(missing, |_| Ok(value)));
                $crate::sides::EntitlementAnswer {
                    refusal: answer.map_or_else($second::Refusal::number, |_| 0),
                    value: answer.map_or(0, |value| value.0),
                }
            }

            fn explain(&self, sheet: &[u8], list: &[u8]) -> $crate::sides::Explanation {
                let explanation = $second::explain(sheet, list);
                $crate::sides::Explanation {
                    refusal: explanation.refusal(),
                    reason: explanation.reason(),
                    from: explanation.part.start,
                    to: explanation.part.end,
                }
            }
        }

        impl $crate::sides::Reference for $name {
            fn judge(&self, sheet: &[u8], rounded: &$crate::sides::Rounded) -> Result<(), String> {
                use $second::units::{Amount, Power, Remainder, Watts};
                let sheet = $second::reader::read(sheet).map_err(|it| it.refusal.to_string())?;
                let gtl = |[flow, first, second]: [i64; 3]| $second::exact::RoundedFlow {
                    flow: Watts(flow),
                    first_remainder: Remainder(first),
                    second_remainder: Remainder(second),
                };
                let targets = rounded.targets.iter();
                let figures = $second::exact::Rounded {
                    targets: targets.map(|(target, it)| (*target, gtl(*it))).collect(),
                    market: Watts(rounded.market),
                    settled: Watts(rounded.settled),
                    amount: Amount(rounded.amount),
                };
                $second::exact::judge(&sheet, Power(rounded.entitlement), &figures)
            }

            fn judge_hour(&self, intervals: &[(&[u8], i64)], amount: i64) -> Result<(), String> {
                use $second::units::{Amount, Power};
                let mut sheets = Vec::with_capacity(intervals.len());
                for (sheet, entitlement) in intervals {
                    let sheet = $second::reader::read(sheet);
                    let sheet = sheet.map_err(|it| it.refusal.to_string())?;
                    sheets.push((sheet, Power(*entitlement)));
                }
                $second::exact::judge_hour(&sheets, Amount(amount))
            }
        }

        $crate::hours!($name, $second);
        $crate::drafts!($name, $second);
    };
}

reference!(Second, second);
