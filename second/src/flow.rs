//! From the generation-to-load flow to the market flow: steps 4 to 6.

use crate::generation_to_load::{self, Balance, GenerationToLoad};
use crate::sheet::{Class, FLOWGATE, Point, Rto, Sheet, Subject, Target};
use crate::units::{FineWatts, Power, TensOfWatts, Watts};

fn net_schedule(point: &Point) -> Power {
    point.import + point.wheel_in - point.export - point.wheel_out
}

/// Step 4: parallel flow over the non-common points, shadow flow over the common.
pub fn scheduled_flow(sheet: &Sheet, target: Target, class: Class) -> Watts {
    sheet
        .factors(target, Subject::Point)
        .zip(&sheet.points)
        .filter(|(_, point)| point.class == class)
        .map(|(factor, point)| net_schedule(point) * factor)
        .sum::<TensOfWatts>()
        .watts()
}

/// What the PARs of a class carry away, before it is rounded.
pub fn carried(sheet: &Sheet, balance: &Balance, class: Class) -> FineWatts {
    let factors = sheet.factors(FLOWGATE, Subject::Par);
    let mut carried = FineWatts::ZERO;
    for ((par, factor), target) in sheet.pars.iter().zip(factors).zip(1..) {
        if par.class == class {
            let flow = generation_to_load::flow(sheet, balance, target).flow
                + scheduled_flow(sheet, target, Class::NonCommon);
            carried += flow * factor;
        }
    }
    carried
}

fn control(sheet: &Sheet, class: Class) -> Watts {
    sheet
        .factors(FLOWGATE, Subject::Par)
        .zip(&sheet.pars)
        .filter(|(_, par)| par.class == class)
        .map(|(factor, par)| (par.actual - par.target) * factor)
        .sum::<TensOfWatts>()
        .watts()
}

/// Step 5: what the PARs of a class carry away, less what they control.
pub fn redirect(sheet: &Sheet, balance: &Balance, class: Class) -> Watts {
    carried(sheet, balance, class).rounded() - control(sheet, class)
}

/// The Non-Monitoring RTO's flows on the flowgate.
#[derive(Clone, Copy, Debug, PartialEq, Eq)]
pub struct Flow {
    pub generation_to_load: GenerationToLoad,
    pub parallel: Watts,
    pub shadow: Watts,
    pub common_redirect: Watts,
    pub non_common_redirect: Watts,
    pub market: Watts,
}

/// Step 6.
pub fn market_flow(sheet: &Sheet, balance: &Balance) -> Flow {
    let generation_to_load = generation_to_load::flow(sheet, balance, FLOWGATE);
    let parallel = scheduled_flow(sheet, FLOWGATE, Class::NonCommon);
    let shadow = scheduled_flow(sheet, FLOWGATE, Class::Common);
    let common_redirect = redirect(sheet, balance, Class::Common);
    // The non-common PARs are NYISO's, and the flows are the other RTO's.
    let non_common_redirect = match sheet.head.monitoring {
        Rto::Nyiso => Watts::ZERO,
        Rto::Pjm => redirect(sheet, balance, Class::NonCommon),
    };
    Flow {
        generation_to_load,
        parallel,
        shadow,
        common_redirect,
        non_common_redirect,
        market: generation_to_load.flow + parallel + shadow - common_redirect - non_common_redirect,
    }
}
