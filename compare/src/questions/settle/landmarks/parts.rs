//! Loads, generation and flow: sheets on which a wrong order, or a figure taken for
//! another, would show in a refusal or in a printed figure.

use second::Refusal;
use second::generation_to_load::{Balance, Generation, GenerationToLoad, flow};
use second::layout::LOADS;
use second::sheet::{Class, FLOWGATE, Place, Rto, Sheet, Subject};
use second::units::{FineWatts, Power, Remainder, TensOfWatts, WHOLE_FACTOR, Watts};

type Quotient = (Watts, Remainder);

pub fn accepted(sheet: &Sheet, balance: &Balance) -> [bool; 3] {
    let on_flowgate = flow(sheet, balance, FLOWGATE);
    let by_generation = by_generation(balance, &on_flowgate);
    [
        by_loads(sheet, balance, &on_flowgate),
        by_generation,
        by_generation && own_flow_of_a_par(sheet, balance, on_flowgate.flow),
    ]
}

/// Behind another first quotient or remainder come another flow or remainders, where
/// final generation is not zero.
fn first(gtl: &GenerationToLoad) -> Quotient {
    (gtl.load_share, gtl.first_remainder)
}

/// By final load, without losses, and with what lines import.
fn by_loads(sheet: &Sheet, balance: &Balance, gtl: &GenerationToLoad) -> bool {
    let Balance { loads, generation } = balance;
    let (n, net) = (gtl.weighted_loads, loads.net_load);
    let losses: Vec<Power> = sheet.zones.iter().map(|zone| zone.losses).collect();
    let imports = line_imports(sheet);
    let (n_of_losses, all_losses) = summed(sheet, &losses);
    let (n_of_imports, all_imports) = summed(sheet, &imports);
    let other = |n: TensOfWatts, divisor: Power| {
        divisor > Power::ZERO && n.watts().share(generation.outputs, divisor) != first(gtl)
    };
    let mut zones = losses.iter().zip(&imports);
    zones.any(|(losses, imports)| *losses.min(imports) > Power::ZERO)
        && generation.final_generation > Power::ZERO
        && loads.final_load < net
        && other(n, loads.final_load)
        && other(n - n_of_losses, net - all_losses)
        && other(n + n_of_imports, net + all_imports)
}

/// What powers by zone are in N, and in net load.
fn summed(sheet: &Sheet, powers: &[Power]) -> (TensOfWatts, Power) {
    let factors = sheet.factors(FLOWGATE, Subject::Zone);
    let weighted = factors.zip(powers).map(|(factor, power)| *power * factor);
    (weighted.sum(), powers.iter().copied().sum())
}

/// The imports of each zone's lines.
fn line_imports(sheet: &Sheet) -> Vec<Power> {
    let mut imports = vec![Power::ZERO; sheet.zones.len()];
    for point in &sheet.points {
        if let Place::Line(zone) = point.place {
            imports[zone.index()] += point.import;
        }
    }
    imports
}

/// By net and by final generation for G, without scaling, and scaled the other way.
fn by_generation(balance: &Balance, gtl: &GenerationToLoad) -> bool {
    let Generation {
        outputs,
        net_generation,
        final_generation,
        ..
    } = balance.generation;
    let by = |g| gtl.weighted_loads.watts().share(g, balance.loads.net_load);
    let printed = (gtl.flow, gtl.second_remainder);
    outputs > net_generation
        && net_generation > final_generation
        && final_generation > Power::ZERO
        && by(net_generation) != first(gtl)
        && by(final_generation) != first(gtl)
        && (gtl.whole_flow, Remainder::ZERO) != printed
        && gtl.whole_flow.share(net_generation, final_generation) != printed
}

/// Whether a redirect that counts would be another with the flowgate's flow on PARs
/// that have one of their own: what they carry moves by more than a watt.
fn own_flow_of_a_par(sheet: &Sheet, balance: &Balance, on_flowgate: Watts) -> bool {
    let mut moved = [FineWatts::ZERO; 2];
    let factors = sheet.factors(FLOWGATE, Subject::Par);
    for ((par, factor), target) in sheet.pars.iter().zip(factors).zip(1..) {
        let own = flow(sheet, balance, target).flow;
        if own != Watts::ZERO {
            moved[usize::from(par.class == Class::NonCommon)] += (own - on_flowgate) * factor;
        }
    }
    let [common, noncommon] = moved.map(|it| it.abs().0 > WHOLE_FACTOR);
    common || (noncommon && sheet.head.monitoring == Rto::Pjm)
}

pub fn refused(balance: &Balance, refusal: Refusal) -> [bool; 10] {
    let Balance { loads, generation } = balance;
    let within = |power: Power| LOADS.contains(&power.0);
    let is = |row| refusal == row;
    let mut zones = generation.zone_generation.iter();
    let behind = [
        zones.any(|power| *power < Power::ZERO),
        generation.net_generation == Power::ZERO,
        generation.final_generation < Power::ZERO,
    ];
    let [row_17, row_18] = [Refusal::ZoneLoadBelowZero, Refusal::NoFinalLoad].map(is);
    let by_loads = !within(loads.total_load) && within(generation.outputs);
    let by_outputs = within(loads.total_load) && !within(generation.outputs);
    [
        is(Refusal::TooMuchPower) && by_loads && within(loads.net_load),
        is(Refusal::TooMuchPower) && by_outputs && within(generation.net_generation),
        row_17 && behind[0],
        row_17 && behind[1],
        row_17 && behind[2],
        row_18 && behind[0],
        row_18 && behind[1],
        row_18 && behind[2],
        row_18 && loads.net_load > Power::ZERO && behind == [false; 3],
        is(Refusal::NoNetGeneration) && generation.outputs > Power::ZERO,
    ]
}
