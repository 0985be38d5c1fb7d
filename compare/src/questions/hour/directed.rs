//! Hours made for a landmark, with what document 02 says of each interval.

use second::draft;
use second::hour::{LARGEST_AMOUNT, MOST_INTERVALS};
use second::layout::SECONDS;
use second::names::NameField;

use crate::chance::Chance;
use crate::interval::{Interval, Scale, Sizes, add_lake, drawn};
use crate::questions::hour::inputs::{
    chance, lasting, monitored_by, monitoring_of, of_flowgate, of_other_flowgate,
    otherwise_monitored,
};
use crate::questions::hour::{Input, own_rows};
use crate::questions::settle;
use crate::questions::settle::faults;
use crate::sides::hours::Hour;

/// An hour, and the answer to each of its intervals.
pub type Directed = (Input, Vec<u8>);

const FLOWGATE: NameField = *b"a flowgate's own";

/// All of them but the sweeps.
pub fn all(seed: u64) -> Vec<Directed> {
    let chance = &mut chance(seed, u64::MAX);
    let model = &model(chance, -100);
    let mut all = vec![Script::default().hour("an empty hour")];
    all.extend(full(model));
    all.push(brim(model));
    all.extend(others(chance, model));
    all.push(own_refusals(chance, model));
    all.extend(amounts(chance));
    all.extend(with_paths(chance, model));
    all.extend(any(model));
    all
}

/// Intervals one by one, each with its answer.
#[derive(Clone, Default)]
struct Script {
    before: Option<Hour>,
    steps: Vec<(settle::Input, u8)>,
}

impl Script {
    fn then(mut self, interval: settle::Input, answer: u8) -> Self {
        self.steps.push((interval, answer));
        self
    }

    /// Intervals of these lengths, all of them taken.
    fn taking(mut self, model: &settle::Input, lengths: &[u16]) -> Self {
        let intervals = lengths.iter().map(|seconds| lasting(model, *seconds));
        self.steps.extend(intervals.map(|interval| (interval, 0)));
        self
    }

    fn hour(self, origin: &str) -> Directed {
        let (intervals, answers) = self.steps.into_iter().unzip();
        let mut input = Input::grown(origin, intervals);
        input.before = self.before;
        (input, answers)
    }
}

/// With a list of this entitlement.
fn listed(interval: &Interval, value: i32) -> settle::Input {
    let list = draft::entitlement(interval.head.name, value);
    settle::Input::of("an interval of an hour", interval.records().concat(), list)
}

/// A flow of some MW at most, so that an entitlement of -10 MW is below it.
fn model(chance: &mut Chance, value: i32) -> settle::Input {
    let sizes = Sizes {
        zones: 2,
        units: 2,
        points: 1,
        pars: 1,
    };
    let mut interval = drawn(chance, sizes, Scale::TINY);
    interval.head.name = FLOWGATE;
    interval.head.prices = [5000, 2000];
    listed(&interval, value)
}

/// An interval with other flowgate name and Monitoring RTO, this many seconds long.
fn other(model: &settle::Input, seconds: u16) -> settle::Input {
    lasting(&otherwise_monitored(&of_other_flowgate(model, 0)), seconds)
}

/// Row 24 by itself, and where 25 and 26 are met too.
fn full(model: &settle::Input) -> [Directed; 2] {
    let long = Script::default()
        .taking(model, &[60; MOST_INTERVALS])
        .then(lasting(model, 1), 24)
        .then(other(model, 1), 24)
        .then(other(model, 900), 24);
    let short = Script::default()
        .taking(model, &[1; MOST_INTERVALS])
        .then(lasting(model, 1), 24)
        .then(other(model, 1), 24);
    [long.hour("60 minutes"), short.hour("60 seconds")]
}

/// Row 25 by one second, and where 26 is met too.
fn brim(model: &settle::Input) -> Directed {
    Script::default()
        .taking(model, &[300; 11])
        .taking(model, &[299])
        .then(lasting(model, 2), 25)
        .then(other(model, 2), 25)
        .then(other(model, 1), 26)
        .taking(model, &[1])
        .then(lasting(model, 1), 25)
        .hour("3600 s and one more")
}

/// Every length that just fills an hour, and the next one.
pub fn just_filled(seed: u64) -> impl Iterator<Item = Directed> {
    let model = model(&mut chance(seed, u64::MAX), -100);
    let lengths = *SECONDS.start() as u16..*SECONDS.end() as u16;
    lengths.map(move |seconds| {
        Script::default()
            .taking(&model, &[900, 900, 900, 900 - seconds])
            .then(lasting(&model, seconds + 1), 25)
            .taking(&model, &[seconds])
            .then(lasting(&model, 1), 25)
            .hour("just filled")
    })
}

/// Row 26 by each byte of the name, by the Monitoring RTO, and by both; an empty hour
/// is open to any of them.
fn others(chance: &mut Chance, model: &settle::Input) -> Vec<Directed> {
    let mut by_name = Script::default().taking(model, &[1]);
    for byte in 0..FLOWGATE.len() {
        by_name = by_name.then(of_other_flowgate(model, byte), 26);
    }
    let by_rto = Script::default()
        .taking(model, &[1])
        .then(otherwise_monitored(model), 26)
        .then(other(model, 1), 26)
        .taking(model, &[1]);
    let open = Script::default()
        .then(refused(chance, 3), 3)
        .then(other(model, 1), 0)
        .then(lasting(model, 1), 26);
    vec![
        by_name.hour("names that differ in a byte"),
        by_rto.hour("another Monitoring RTO"),
        open.hour("another flowgate first"),
    ]
}

/// An interval that this row refuses.
fn refused(chance: &mut Chance, row: u8) -> settle::Input {
    loop {
        let input = faults::planted(chance, &[row]);
        if input.answer().is_err_and(|it| it.number() == row) {
            return input;
        }
    }
}

/// Every refusal of an interval's own in an hour of none, of some and of 60.
fn own_refusals(chance: &mut Chance, model: &settle::Input) -> Directed {
    let refused: Vec<(settle::Input, u8)> =
        own_rows().map(|row| (refused(chance, row), row)).collect();
    let mut script = Script::default();
    script.steps.extend_from_slice(&refused);
    script = script.taking(model, &[60; 12]);
    script.steps.extend_from_slice(&refused);
    script = script.taking(model, &[60; MOST_INTERVALS - 12]);
    script.steps.extend_from_slice(&refused);
    script.hour("intervals refused by themselves")
}

/// Amounts of both signs for both RTOs, the greatest ones, and ties that all round one
/// way.
fn amounts(chance: &mut Chance) -> Vec<Directed> {
    let mut all = Vec::new();
    for monitoring in [1, 2] {
        for value in [-100, 100] {
            let model = monitored_by(&model(chance, value), monitoring);
            let hour = Script::default().taking(&model, &[300; 12]);
            all.push(hour.hour("amounts of one sign"));
        }
    }
    for sign in [1, -1] {
        let model = with_flow(chance, 100_000, 10_000 * sign, 400_000);
        let model = listed(&model, -100_000 * i32::from(sign));
        let hour = Script::default().taking(&model, &[900; 4]);
        all.push(hour.hour("the greatest amounts"));
    }
    // 10 W at 3000 for 60 s are half a thousandth of a cent.
    let model = listed(&with_flow(chance, 1, 1, 3000), 0);
    let hour = Script::default().taking(&model, &[60; MOST_INTERVALS]);
    all.push(hour.hour("60 ties"));
    all
}

/// Intervals with paths: among others, 60 of them, and as far off the exact amount as p + 3
/// allows and p + 2 does not.
fn with_paths(chance: &mut Chance, model: &settle::Input) -> Vec<Directed> {
    let mut interval = with_flow(chance, 100, 10_000, 5000);
    add_lake(chance, &mut interval, Scale::TINY);
    interval.head.monitoring = monitoring_of(model);
    interval.paths[0].flow = 50;
    interval.paths[0].factor = -10_000;
    let settled = listed(&interval, 20);
    let among = Script::default()
        .taking(model, &[60; 3])
        .taking(&settled, &[60; 3])
        .taking(model, &[60; 3]);
    let full = Script::default().taking(&settled, &[60; MOST_INTERVALS]);
    let mut all = vec![
        among.hour("intervals with and without paths"),
        full.hour("60 intervals with paths"),
    ];
    for pars in [2, 8] {
        let (far_off, _) = settle::directed::lake_accuracy::far_off(chance, pars);
        let far_off = of_flowgate(&far_off, FLOWGATE);
        let hour = Script::default().taking(&far_off, &[900; 4]);
        all.push(hour.hour("more than p + 2 W off"));
    }
    all
}

/// A flow of import x factor x 10 W and nothing else.
fn with_flow(chance: &mut Chance, import: u32, factor: i16, price: u32) -> Interval {
    let sizes = Sizes {
        zones: 1,
        units: 1,
        points: 1,
        pars: 0,
    };
    let mut interval = drawn(chance, sizes, Scale::TINY);
    interval.head.name = FLOWGATE;
    interval.head.prices = [price; 2];
    interval.zones[0].load = import + 1;
    let point = &mut interval.points[0];
    (point.place, point.import, point.export) = (0, import, 0);
    (point.wheel_in, point.wheel_out) = (0, 0);
    interval.flowgate.clear();
    interval.flowgate.points[0] = factor;
    interval
}

/// Hours that no intervals grew.
fn any(model: &settle::Input) -> Vec<Directed> {
    let directed = |(before, answer)| {
        let mut script = Script::default().then(lasting(model, 60), answer);
        script.before = Some(before);
        script.hour("an hour that no intervals grew")
    };
    values(model).into_iter().map(directed).collect()
}

/// Values of an hour, each with its answer to the model.
fn values(model: &settle::Input) -> Vec<(Hour, u8)> {
    let held = Hour {
        amounts: [1; 60],
        seconds: [1; 60],
        count: 1,
        name: FLOWGATE,
        monitoring_rto: monitoring_of(model),
    };
    let counted = |count| Hour {
        count,
        seconds: [u16::MAX; 60],
        ..held
    };
    let of = |amounts| Hour { amounts, ..held };
    let beyond = LARGEST_AMOUNT.0 + 1;
    vec![
        (counted(60), 24),
        (counted(61), 24),
        (counted(255), 24),
        (counted(usize::MAX), 24),
        (counted(59), 25),
        (counted(1), 25),
        // Cells behind the count are not looked at.
        (counted(0), 0),
        (held, 0),
        (of([beyond; 60]), 0),
        (of([-beyond; 60]), 0),
        (of([i64::MAX; 60]), 0),
        (of([i64::MIN; 60]), 0),
        (with_rto(held, 0), 26),
        (with_rto(held, 3), 26),
        (with_rto(Hour { count: 0, ..held }, 3), 0),
        (with_name(held, [0; 16]), 26),
        (with_name(Hour { count: 0, ..held }, [b'o'; 16]), 0),
    ]
}

fn with_rto(hour: Hour, monitoring_rto: u8) -> Hour {
    Hour {
        monitoring_rto,
        ..hour
    }
}

fn with_name(hour: Hour, name: NameField) -> Hour {
    Hour { name, ..hour }
}
