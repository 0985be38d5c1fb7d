//! The generation-to-load flow in the order of Schedule D: loads (5.2), generation (5.3),
//! then the flow (5.4). They are steps 1 to 3 of document 01, each with all its figures
//! beside the schedule's terms. Rows 16 to 21 look at the first two.

use crate::layout::MOST_ZONES;
use crate::refusal::Refusal;
use crate::sheet::{Place, Point, Sheet, Subject, Target};
use crate::units::{Power, Remainder, TensOfWatts, Watts};

/// Zones that a sheet does not have are zero.
type ByZone = [Power; MOST_ZONES];

/// Step 1.
#[derive(Clone, Debug, PartialEq, Eq)]
pub struct Loads {
    /// Zonal_Total_Load of all zones together, for row 16.
    pub total_load: Power,
    /// Zonal_Reduced_Load, document 01's zone load.
    pub zone_loads: ByZone,
    /// RTO_Net_Load.
    pub net_load: Power,
    /// RTO_Final_Load.
    pub final_load: Power,
}

pub fn loads(sheet: &Sheet) -> Loads {
    let mut zone_loads = [Power::ZERO; MOST_ZONES];
    let zones = &mut zone_loads[..sheet.zones.len()];
    // Zonal_Total_Load, then reduced.
    for (zone_load, zone) in zones.iter_mut().zip(&sheet.zones) {
        *zone_load = zone.load + zone.losses;
    }
    let total_load = sum(zones);
    let proxies = reduce(zones, &sheet.points, |point| point.import);
    let net_load = sum(zones);
    Loads {
        total_load,
        zone_loads,
        net_load,
        final_load: net_load - proxies,
    }
}

/// Step 2.
#[derive(Clone, Debug, PartialEq, Eq)]
pub struct Generation {
    /// G: RTO_Gen of all zones together.
    pub outputs: Power,
    /// RTO_Reduced_Gen, document 01's zone generation.
    pub zone_generation: ByZone,
    /// RTO_Net_Gen.
    pub net_generation: Power,
    /// RTO_Final_Gen.
    pub final_generation: Power,
}

pub fn generation(sheet: &Sheet) -> Generation {
    let mut zone_generation = [Power::ZERO; MOST_ZONES];
    let zones = &mut zone_generation[..sheet.zones.len()];
    // RTO_Gen, then reduced.
    for unit in &sheet.units {
        zones[unit.zone.index()] += unit.output;
    }
    let outputs = sum(zones);
    let proxies = reduce(zones, &sheet.points, |point| point.export);
    let net_generation = sum(zones);
    Generation {
        outputs,
        zone_generation,
        net_generation,
        final_generation: net_generation - proxies,
    }
}

/// Takes the schedules of scheduled lines from their zones; those of all proxies.
fn reduce(zones: &mut [Power], points: &[Point], schedule: fn(&Point) -> Power) -> Power {
    let mut proxies = Power::ZERO;
    for point in points {
        match point.place {
            Place::Line(zone) => zones[zone.index()] -= schedule(point),
            Place::Proxy => proxies += schedule(point),
        }
    }
    proxies
}

fn sum(zones: &[Power]) -> Power {
    zones.iter().copied().sum()
}

/// Steps 1 and 2.
#[derive(Clone, Debug, PartialEq, Eq)]
pub struct Balance {
    pub loads: Loads,
    pub generation: Generation,
}

const LARGEST_SUM: Power = Power(2_000_000);

impl Balance {
    pub fn of(sheet: &Sheet) -> Self {
        Balance {
            loads: loads(sheet),
            generation: generation(sheet),
        }
    }

    /// Rows 16 to 21, in the table's order.
    pub fn rows(&self) -> Result<(), Refusal> {
        let Balance { loads, generation } = self;
        if loads.total_load > LARGEST_SUM || generation.outputs > LARGEST_SUM {
            return Err(Refusal::TooMuchPower);
        }
        if any_below_zero(&loads.zone_loads) {
            return Err(Refusal::ZoneLoadBelowZero);
        }
        if loads.final_load <= Power::ZERO {
            return Err(Refusal::NoFinalLoad);
        }
        if any_below_zero(&generation.zone_generation) {
            return Err(Refusal::ZoneGenerationBelowZero);
        }
        if generation.net_generation == Power::ZERO {
            return Err(Refusal::NoNetGeneration);
        }
        if generation.final_generation < Power::ZERO {
            return Err(Refusal::FinalGenerationBelowZero);
        }
        Ok(())
    }
}

fn any_below_zero(zones: &[Power]) -> bool {
    zones.iter().any(|power| *power < Power::ZERO)
}

/// Step 3, for one target. The schedule scales each output by RTO_Final_Gen / RTO_Net_Gen
/// (Gen_Final) and weights each zone's factor by Zonal_Reduced_Load / RTO_Net_Load
/// (RTO_LSF, from which RTO_Final_Load cancels); here both come behind the sums.
#[derive(Clone, Copy, Debug, PartialEq, Eq)]
pub struct GenerationToLoad {
    /// A.
    pub weighted_outputs: TensOfWatts,
    /// N.
    pub weighted_loads: TensOfWatts,
    /// B: all outputs by RTO_LSF.
    pub load_share: Watts,
    pub first_remainder: Remainder,
    /// H: the flow of all outputs.
    pub whole_flow: Watts,
    /// RTO_GTL: the flow of all Gen_Final.
    pub flow: Watts,
    pub second_remainder: Remainder,
}

/// Of a sheet that meets none of rows 16 to 21.
pub fn flow(sheet: &Sheet, balance: &Balance, target: Target) -> GenerationToLoad {
    let Balance { loads, generation } = balance;
    let weighted_outputs: TensOfWatts = sheet
        .factors(target, Subject::Unit)
        .zip(&sheet.units)
        .map(|(factor, unit)| unit.output * factor)
        .sum();
    let weighted_loads: TensOfWatts = sheet
        .factors(target, Subject::Zone)
        .zip(&loads.zone_loads)
        .map(|(factor, zone_load)| *zone_load * factor)
        .sum();
    let all_loads = weighted_loads.watts();
    let (load_share, first_remainder) = all_loads.share(generation.outputs, loads.net_load);
    let whole_flow = weighted_outputs.watts() - load_share;
    let (flow, second_remainder) =
        whole_flow.share(generation.final_generation, generation.net_generation);
    GenerationToLoad {
        weighted_outputs,
        weighted_loads,
        load_share,
        first_remainder,
        whole_flow,
        flow,
        second_remainder,
    }
}
