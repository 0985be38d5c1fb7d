//! Loads, generation and flow (request 4): all figures of document 01's steps 1 to 3.

use second::draft::{self, factor, head, name, par, point, unit, zone};
use second::due::Due;
use second::generation_to_load::{
    Balance, Generation, GenerationToLoad, Loads, flow, generation, loads,
};
use second::layout::MOST_ZONES;
use second::reader::read;
use second::sheet::{FLOWGATE, Place, Point, Sheet, Target};
use second::units::{Power, Remainder, TensOfWatts, Watts};
use second::{listing, settle};

const T1: Target = 1;

const NO_WHEELS: [[u32; 2]; 4] = [[0; 2]; 4];
const WHEELS: [[u32; 2]; 4] = [[700, 1], [0, 900], [1300, 20], [6, 1200]];

fn by_zone(powers: &[i64]) -> [Power; MOST_ZONES] {
    let mut zones = [Power::ZERO; MOST_ZONES];
    for (zone, power) in zones.iter_mut().zip(powers) {
        *zone = Power(*power);
    }
    zones
}

/// The zone loads, and total, net and final load.
fn assert_loads(sheet: &Sheet, zone_loads: &[i64], [total, net, last]: [i64; 3]) {
    let expected = Loads {
        total_load: Power(total),
        zone_loads: by_zone(zone_loads),
        net_load: Power(net),
        final_load: Power(last),
    };
    assert_eq!(loads(sheet), expected);
}

/// Each zone's generation, and G, net and final generation.
fn assert_generation(sheet: &Sheet, zone_generation: &[i64], [g, net, last]: [i64; 3]) {
    let expected = Generation {
        outputs: Power(g),
        zone_generation: by_zone(zone_generation),
        net_generation: Power(net),
        final_generation: Power(last),
    };
    assert_eq!(generation(sheet), expected);
}

/// A, N, B, the first remainder, H, the flow and the second remainder.
fn assert_flow(sheet: &Sheet, target: Target, [a, n, b, first, h, gtl, second]: [i64; 7]) {
    let expected = GenerationToLoad {
        weighted_outputs: TensOfWatts(a),
        weighted_loads: TensOfWatts(n),
        load_share: Watts(b),
        first_remainder: Remainder(first),
        whole_flow: Watts(h),
        flow: Watts(gtl),
        second_remainder: Remainder(second),
    };
    assert_eq!(flow(sheet, &Balance::of(sheet), target), expected);
}

#[test]
fn figures_of_sheet_s() {
    let bytes = draft::sheet_s().concat();
    let sheet = read(&bytes).unwrap();
    // 900 + 100, and 1950 + 50 - 500 of P1's line; P2's proxy takes 300.
    assert_loads(&sheet, &[1000, 1500], [3000, 2500, 2200]);
    // The line exports nothing, the proxy 200.
    assert_generation(&sheet, &[1200, 2000], [3200, 3200, 3000]);
    // A = 1200 x 3000 - 2000 x 1000, N = 1000 x 500 - 1500 x 200;
    // B = 10 x 3200 x 200,000 by 2500, the flow 13,440,000 x 3000 by 3200.
    let on_flowgate = [1_600_000, 200_000, 2_560_000, 0, 13_440_000, 12_600_000, 0];
    assert_flow(&sheet, FLOWGATE, on_flowgate);
    // A = 1200 x 1000; T1's factors of zones are 0.
    let on_t1 = [1_200_000, 0, 0, 0, 12_000_000, 11_250_000, 0];
    assert_flow(&sheet, T1, on_t1);
}

/// Zones with losses, lines into two of them that import and export, proxies of both
/// types that do so too: `tests/cases/flow/figures/each-figure-differs.case`, with these
/// wheels at L1, L2, X1 and X2.
fn every_schedule(wheels: [[u32; 2]; 4]) -> Vec<u8> {
    let [[in_1, out_1], [in_2, out_2], [in_3, out_3], [in_4, out_4]] = wheels;
    let named = |text: &str| name(text.as_bytes());
    let mut records = vec![
        head(named("F"), 2, 300, [5000, 2000]),
        zone(named("Z1"), 700, 23),
        zone(named("Z2"), 410, 17),
        zone(named("Z3"), 305, 8),
        unit(named("U1"), 1, 600),
        unit(named("U2"), 3, 250),
        unit(named("U3"), 2, 331),
        unit(named("U4"), 1, 100),
        point(named("L1"), 2, 1, [61, 40, in_1, out_1]),
        point(named("L2"), 1, 3, [20, 30, in_2, out_2]),
        point(named("L3"), 2, 1, [9, 5, 0, 0]),
        point(named("X1"), 1, 0, [70, 110, in_3, out_3]),
        point(named("X2"), 2, 0, [13, 7, in_4, out_4]),
        par(named("T1"), 1, 40, 52),
    ];
    let on_flowgate = [
        37, -1250, 804, 5, 311, -92, 47, 120, -75, 60, 33, -200, 2500,
    ];
    let on_t1 = [-81, 402, 11, -640, -15, 700, 39, -40, 500, 10, 1, 90];
    let due = Due::by([4, 3, 5, 1]);
    for ([target, subject, high, low], value) in due.zip(on_flowgate.into_iter().chain(on_t1)) {
        let index = u16::from_be_bytes([high, low]);
        records.push(factor(target, subject, index, value));
    }
    records.concat()
}

#[test]
fn figures_that_all_differ() {
    for wheels in [NO_WHEELS, WHEELS, [[200_000; 2]; 4]] {
        figures_differ(&every_schedule(wheels));
    }
}

/// Wheels enter none of them.
fn figures_differ(bytes: &[u8]) {
    let sheet = read(bytes).unwrap();
    // 723 - 61 - 9, 427 and 313 - 20; proxies import 70 + 13.
    assert_loads(&sheet, &[653, 427, 293], [1463, 1373, 1290]);
    // 600 + 100 - 40 - 5, 331 and 250 - 30; proxies export 110 + 7.
    assert_generation(&sheet, &[655, 331, 220], [1281, 1206, 1089]);
    // A = 22,200 - 312,500 + 266,124 + 500, N = 203,083 - 39,284 + 13,771;
    // 2,274,671,700 = 1,656,716 x 1373 + 632;
    // -1,893,476 x 1089 = -2,061,995,364 = -1,709,781 x 1206 + 522.
    let on_flowgate = [
        -23_676, 177_570, 1_656_716, 632, -1_893_476, -1_709_781, 522,
    ];
    assert_flow(&sheet, FLOWGATE, on_flowgate);
    // A = -48,600 + 100,500 + 3,641 - 64,000, N = -9,795 + 298,900 + 11,427;
    // 3,849,814,920 = 2,803,944 x 1373 - 192;
    // -2,888,534 x 1089 = -3,145,613,526 = -2,608,303 x 1206 - 108.
    let on_t1 = [
        -8_459, 300_532, 2_803_944, -192, -2_888_534, -2_608_303, -108,
    ];
    assert_flow(&sheet, T1, on_t1);
}

/// T1 carries 2500 x (-2,608,303 - 2,600) by 10,000, which is -652,726, and controls
/// (40 - 52) x 2500 x 10; a sixth of the market flow is paid.
#[test]
fn the_statement_takes_these_figures() {
    let list = draft::entitlement(name(b"F"), 0);
    let statement = settle(&every_schedule(NO_WHEELS), &list).unwrap();
    let expected = "flowgate 46
gtl -1709781 632 522
parallel 15600
shadow -5700
common -352726
noncommon 0
market -1347155
entitlement 0
price 2000
amount -224526
NYISO 224526
PJM -224526
";
    assert_eq!(String::from_utf8(listing(&statement)).unwrap(), expected);
}

/// Numbers that are the same in every run.
struct Chance(u64);

impl Chance {
    fn upto(&mut self, most: u64) -> u64 {
        self.0 = self.0.wrapping_mul(0x5851_f42d_4c95_7f2d).wrapping_add(1);
        (self.0 >> 33) % (most + 1)
    }

    fn power(&mut self, most: u64) -> u32 {
        self.upto(most) as u32
    }
}

/// A sheet of any sizes, which may meet rows 16 to 21.
fn any_sheet(chance: &mut Chance) -> Vec<u8> {
    let named = |k: u64| name(format!("N{k}").as_bytes());
    let [zones, units] = [1 + chance.upto(31), 1 + chance.upto(60)];
    let [points, pars] = [chance.upto(32), chance.upto(3)];
    let most = [30, 1000, 60_000][chance.upto(2) as usize];
    let mut records = vec![head(name(b"F"), 2, 300, [5000, 2000])];
    for k in 0..zones {
        records.push(zone(named(k), chance.power(most), chance.power(most / 8)));
    }
    for k in 0..units {
        let zone = 1 + chance.upto(zones - 1) as u8;
        records.push(unit(named(k), zone, chance.power(most)));
    }
    for k in 0..points {
        let (class, place) = (1 + chance.upto(1) as u8, chance.upto(zones) as u8);
        let schedules = [most / 9, most / 9, most, most].map(|most| chance.power(most));
        records.push(point(named(k), class, place, schedules));
    }
    for k in 0..pars {
        records.push(par(named(k), 1, 0, 0));
    }
    for [target, subject, high, low] in Due::by([units, zones, points, pars].map(|n| n as usize)) {
        let index = u16::from_be_bytes([high, low]);
        let value = chance.upto(20_000) as i16 - 10_000;
        records.push(factor(target, subject, index, value));
    }
    records.concat()
}

/// The imports or exports of all lines, and of all proxies.
fn schedules(sheet: &Sheet, schedule: fn(&Point) -> Power) -> [Power; 2] {
    let is_proxy = |point: &&Point| point.place == Place::Proxy;
    let (proxies, lines): (Vec<&Point>, Vec<&Point>) = sheet.points.iter().partition(is_proxy);
    [lines, proxies].map(|points| points.into_iter().map(schedule).sum())
}

fn sum(powers: impl IntoIterator<Item = Power>) -> Power {
    powers.into_iter().sum()
}

fn assert_loads_add_up(sheet: &Sheet) {
    let it = loads(sheet);
    let [lines, proxies] = schedules(sheet, |point| point.import);
    assert_eq!(it.net_load, sum(it.zone_loads));
    assert_eq!(it.net_load, it.total_load - lines);
    assert_eq!(it.final_load, it.net_load - proxies);
    let with_losses = sheet.zones.iter().map(|zone| zone.load + zone.losses);
    assert_eq!(it.total_load, sum(with_losses));
}

fn assert_generation_adds_up(sheet: &Sheet) {
    let it = generation(sheet);
    let [lines, proxies] = schedules(sheet, |point| point.export);
    assert_eq!(it.net_generation, sum(it.zone_generation));
    assert_eq!(it.outputs, sum(it.zone_generation) + lines);
    assert_eq!(it.final_generation, it.net_generation - proxies);
    assert_eq!(it.outputs, sum(sheet.units.iter().map(|unit| unit.output)));
}

/// Each quotient with its remainder makes up its dividend, and no other is nearer.
fn assert_flow_adds_up(sheet: &Sheet, target: Target) {
    let balance = Balance::of(sheet);
    let Balance { loads, generation } = &balance;
    let it = flow(sheet, &balance, target);
    let g_by_n = 10 * generation.outputs.0 * it.weighted_loads.0;
    let [first, second] = [it.first_remainder.0, it.second_remainder.0];
    assert_eq!(it.load_share.0 * loads.net_load.0 + first, g_by_n);
    assert!(2 * first.abs() <= loads.net_load.0);
    let h = 10 * it.weighted_outputs.0 - it.load_share.0;
    assert_eq!(it.whole_flow.0, h);
    let scaled = h * generation.final_generation.0;
    assert_eq!(it.flow.0 * generation.net_generation.0 + second, scaled);
    assert!(2 * second.abs() <= generation.net_generation.0);
}

#[test]
fn figures_of_any_sheet_add_up() {
    let chance = &mut Chance(4);
    let mut balanced = 0;
    for _ in 0..2000 {
        let bytes = any_sheet(chance);
        let sheet = read(&bytes).unwrap();
        assert_loads_add_up(&sheet);
        assert_generation_adds_up(&sheet);
        if Balance::of(&sheet).rows().is_ok() {
            balanced += 1;
            (0..=sheet.pars.len()).for_each(|target| assert_flow_adds_up(&sheet, target));
        }
    }
    assert!(balanced > 200, "{balanced} of 2000");
}
