//! Drafts by the second implementation, or by a copy of its crate.

#[macro_export]
macro_rules! drafts {
    ($name:ident, $second:ident) => {
        $crate::content_of_draft!($name, $second);
        $crate::draft_of_content!($name, $second);

        impl $crate::sides::drafts::Drafts for $name {
            fn read_draft(&self, sheet: &[u8]) -> $crate::sides::drafts::Drafted {
                match $second::content::content(sheet) {
                    Ok(content) => $crate::sides::drafts::Drafted {
                        refusal: 0,
                        draft: Self::draft(&content),
                    },
                    Err(refused) => $crate::sides::drafts::Drafted {
                        refusal: refused.refusal.number(),
                        draft: $crate::sides::drafts::Draft::EMPTY,
                    },
                }
            }

            fn write_draft(
                &self,
                draft: &$crate::sides::drafts::Draft,
                out: &mut [u8],
            ) -> $crate::sides::drafts::Written {
                let answer = $second::write(&Self::content(draft), out);
                $crate::sides::drafts::Written {
                    refusal: answer.map_or_else($second::Refusal::number, |_| 0),
                    length: answer.unwrap_or(0),
                }
            }

            fn resettle(
                &self,
                sheet: &[u8],
                import: u32,
                list: &[u8],
                out: &mut [u8],
            ) -> $crate::sides::Printed {
                use $crate::sides::Side;
                let mut content = $second::content::content(sheet).expect("an accepted sheet");
                content.points[0].import = import;
                let length = $second::write(&content, out).unwrap_or(0);
                let listing = &mut [0; $crate::sides::LISTING_ROOM];
                self.report(&out[..length], list, listing)
            }
        }
    };
}

/// What a draft gives, as the second implementation's writer takes it.
#[macro_export]
macro_rules! content_of_draft {
    ($name:ident, $second:ident) => {
        impl $name {
            fn content(draft: &$crate::sides::drafts::Draft) -> $second::Content {
                $second::Content {
                    head: $second::content::Head {
                        name: draft.head.name,
                        monitoring: draft.head.monitoring_rto,
                        seconds: draft.head.seconds,
                        monitoring_price: draft.head.monitoring_price,
                        non_monitoring_price: draft.head.nonmonitoring_price,
                    },
                    zones: draft.zones().iter().map(Self::zone).collect(),
                    units: draft.units().iter().map(Self::unit).collect(),
                    points: draft.points().iter().map(Self::point).collect(),
                    pars: draft.pars().iter().map(Self::par).collect(),
                    factors: draft.factors().iter().map(Self::factor).collect(),
                    paths: draft.paths().iter().map(Self::path).collect(),
                    circulations: draft.circulations().iter().map(Self::circulation).collect(),
                }
            }

            fn zone(zone: &$crate::sides::drafts::Zone) -> $second::content::Zone {
                $second::content::Zone {
                    name: zone.name,
                    load: zone.load,
                    losses: zone.losses,
                }
            }

            fn unit(unit: &$crate::sides::drafts::Unit) -> $second::content::Unit {
                $second::content::Unit {
                    name: unit.name,
                    zone: unit.zone,
                    output: unit.output,
                }
            }

            fn point(point: &$crate::sides::drafts::Point) -> $second::content::Point {
                use $second::sheet::{Place, ZoneNumber};
                $second::content::Point {
                    name: point.name,
                    class: point.sort,
                    place: match point.line {
                        0 => Place::Proxy,
                        _ => Place::Line(ZoneNumber(point.zone)),
                    },
                    import: point.import,
                    export: point.export,
                    wheel_in: point.wheel_in,
                    wheel_out: point.wheel_out,
                }
            }

            fn par(par: &$crate::sides::drafts::Par) -> $second::content::Par {
                $second::content::Par {
                    name: par.name,
                    class: par.class,
                    actual: par.actual,
                    target: par.target,
                }
            }

            fn factor(factor: &$crate::sides::drafts::Factor) -> $second::content::Factor {
                $second::content::Factor {
                    target: factor.target,
                    subject: factor.subject,
                    index: factor.index,
                    value: factor.factor,
                }
            }

            fn path(path: &$crate::sides::drafts::Path) -> $second::content::Path {
                $second::content::Path {
                    name: path.name,
                    flow: path.flow,
                    factor: path.factor,
                }
            }

            fn circulation(
                circulation: &$crate::sides::drafts::Circulation,
            ) -> $second::content::Circulation {
                $second::content::Circulation {
                    flow: circulation.flow,
                }
            }
        }
    };
}

/// What the second implementation read, as a draft.
#[macro_export]
macro_rules! draft_of_content {
    ($name:ident, $second:ident) => {
        impl $name {
            fn draft(content: &$second::Content) -> $crate::sides::drafts::Draft {
                let mut draft = $crate::sides::drafts::Draft::EMPTY;
                draft.head = $crate::sides::drafts::Head {
                    name: content.head.name,
                    monitoring_rto: content.head.monitoring,
                    seconds: content.head.seconds,
                    monitoring_price: content.head.monitoring_price,
                    nonmonitoring_price: content.head.non_monitoring_price,
                };
                draft.zone_count = content.zones.len();
                draft.unit_count = content.units.len();
                draft.point_count = content.points.len();
                draft.par_count = content.pars.len();
                draft.factor_count = content.factors.len();
                draft.path_count = content.paths.len();
                draft.circulation_count = content.circulations.len();
                Self::draft_places(content, &mut draft);
                Self::draft_flows(content, &mut draft);
                draft
            }

            fn draft_places(content: &$second::Content, draft: &mut $crate::sides::drafts::Draft) {
                for (to, it) in draft.zones.iter_mut().zip(&content.zones) {
                    (to.name, to.load, to.losses) = (it.name, it.load, it.losses);
                }
                for (to, it) in draft.units.iter_mut().zip(&content.units) {
                    (to.name, to.zone, to.output) = (it.name, it.zone, it.output);
                }
                for (to, it) in draft.points.iter_mut().zip(&content.points) {
                    (to.name, to.sort) = (it.name, it.class);
                    (to.import, to.export) = (it.import, it.export);
                    (to.wheel_in, to.wheel_out) = (it.wheel_in, it.wheel_out);
                    if let $second::sheet::Place::Line(zone) = it.place {
                        (to.line, to.zone) = (1, zone.0);
                    }
                }
            }

            fn draft_flows(content: &$second::Content, draft: &mut $crate::sides::drafts::Draft) {
                for (to, it) in draft.pars.iter_mut().zip(&content.pars) {
                    (to.name, to.class) = (it.name, it.class);
                    (to.actual, to.target) = (it.actual, it.target);
                }
                for (to, it) in draft.factors.iter_mut().zip(&content.factors) {
                    (to.target, to.subject) = (it.target, it.subject);
                    (to.index, to.factor) = (it.index, it.value);
                }
                for (to, it) in draft.paths.iter_mut().zip(&content.paths) {
                    (to.name, to.flow, to.factor) = (it.name, it.flow, it.factor);
                }
                for (to, it) in draft.circulations.iter_mut().zip(&content.circulations) {
                    to.flow = it.flow;
                }
            }
        }
    };
}
