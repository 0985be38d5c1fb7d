//! Records and a draft of zeros.

use super::{Circulation, Draft, Factor, Head, Par, Path, Point, Unit, Zone};

impl Draft {
    /// Zeros in every cell.
    pub const EMPTY: Draft = Draft {
        head: Head {
            name: [0; 16],
            monitoring_rto: 0,
            seconds: 0,
            monitoring_price: 0,
            nonmonitoring_price: 0,
        },
        zone_count: 0,
        zones: [Zone::NONE; 33],
        unit_count: 0,
        units: [Unit::NONE; 257],
        point_count: 0,
        points: [Point::NONE; 33],
        par_count: 0,
        pars: [Par::NONE; 9],
        factor_count: 0,
        factors: [Factor::NONE; 2889],
        path_count: 0,
        paths: [Path::NONE; 5],
        circulation_count: 0,
        circulations: [Circulation::NONE; 2],
    };
}

impl Zone {
    pub const NONE: Zone = Zone {
        name: [0; 16],
        load: 0,
        losses: 0,
    };
}

impl Unit {
    pub const NONE: Unit = Unit {
        name: [0; 16],
        zone: 0,
        output: 0,
    };
}

impl Point {
    pub const NONE: Point = Point {
        name: [0; 16],
        sort: 0,
        line: 0,
        zone: 0,
        import: 0,
        export: 0,
        wheel_in: 0,
        wheel_out: 0,
    };
}

impl Par {
    pub const NONE: Par = Par {
        name: [0; 16],
        class: 0,
        actual: 0,
        target: 0,
    };
}

impl Factor {
    pub const NONE: Factor = Factor {
        target: 0,
        subject: 0,
        index: 0,
        factor: 0,
    };
}

impl Path {
    pub const NONE: Path = Path {
        name: [0; 16],
        flow: 0,
        factor: 0,
    };
}

impl Circulation {
    pub const NONE: Circulation = Circulation { flow: 0 };
}
