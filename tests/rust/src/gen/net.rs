//! Nets of both kinds: reachable, in form but not reachable, with sums or missing numbers near their bounds, with anything
//! where nothing may look, and out of form in one field.

use super::aggregate::{self, has_none, BOUNDS, NO_CLASS_COUNTS, NO_WAYS};
use super::mail::{self, SPARSITIES};
use super::map::NO_STATION_COUNTS;
use super::{call, map, station};
use crate::model::aggregate::{Aggregate, MOST_MISSING, NONE, SUM_LIMIT};
use crate::model::demand::Record;
use crate::model::mail::Mail;
use crate::model::meet::{Back, Meet, CARRYING, TOLD, WITHOUT};
use crate::model::net::{Config, Net};
use crate::model::station::{Station, FINISHED};
use crate::model::PLACES;
use crate::rng::Rng;

/// A net is taken no further from fresh than this: whole waves of large maps take too long to make by the thousand.
const LONGEST_WAY: usize = 60;

/// What a generator must know of a kind of net.
pub trait Sample: Net {
    /// A net of given stations, with any messages in form.
    fn scattered(rng: &mut Rng, config: Config, stations: [Station; PLACES]) -> Self;

    /// Anything where the rules neither look nor write.
    fn litter(&mut self, rng: &mut Rng);

    /// Takes something other than a station out of form; false where the kind has nothing of the sort.
    fn spoil_message(&mut self, rng: &mut Rng) -> bool;
}

impl Sample for Meet {
    fn scattered(_: &mut Rng, config: Config, stations: [Station; PLACES]) -> Meet {
        Meet { config, stations, carrying: WITHOUT, kept: [Aggregate::default(); PLACES] }
    }

    /// Without carrying back nothing looks at what is kept.
    fn litter(&mut self, rng: &mut Rng) {
        litter_stations(rng, self.config, &mut self.stations);
        self.kept = self.kept.map(|_| station::any(rng).held);
    }

    fn spoil_message(&mut self, rng: &mut Rng) -> bool {
        self.carrying = rng.byte().max(2);
        true
    }
}

/// With carrying back: some stations told, totals kept that are in form, often at their bounds, the desk often finished.
impl Sample for Back {
    fn scattered(rng: &mut Rng, config: Config, stations: [Station; PLACES]) -> Back {
        let mut net = Meet { config, stations, carrying: CARRYING, kept: [Aggregate::default(); PLACES] };
        for i in 0..config.k {
            let place = usize::from(i);
            net.kept[place] = station::in_form(rng, i, config).held;
            let station = &mut net.stations[place];
            if i == config.desk {
                if rng.chance(70) {
                    station.state = FINISHED;
                }
            } else if rng.chance(30) {
                station.state = TOLD;
                station.waits = 0;
            } else if rng.chance(50) {
                station.state = FINISHED;
                if rng.chance(80) {
                    station.waits = 0;
                }
                if rng.chance(50) {
                    station.parent = config.desk;
                }
            }
        }
        Back(net)
    }

    fn litter(&mut self, rng: &mut Rng) {
        let Meet { config, stations, kept, .. } = &mut self.0;
        litter_stations(rng, *config, stations);
        let (below, past) = kept.split_at_mut(config.k.into());
        below.iter_mut().for_each(|total| aggregate::litter(rng, total, config.classes));
        past.iter_mut().for_each(|total| *total = station::any(rng).held);
    }

    /// Another flag, a told desk, a told station that waits, a kept total over its bound.
    fn spoil_message(&mut self, rng: &mut Rng) -> bool {
        let (config, i) = (self.0.config, usize::from(rng.station(self.0.config.k)));
        let class = usize::from(rng.station(config.classes));
        match rng.below(5) {
            0 => self.0.carrying = rng.byte().max(2),
            1 => self.0.stations[usize::from(config.desk)].state = TOLD,
            2 => {
                self.0.stations[i].state = TOLD;
                self.0.stations[i].waits = 1 + rng.station(64);
            }
            3 => self.0.kept[i].sums[class] = SUM_LIMIT,
            _ => self.0.kept[i].missing[class] = MOST_MISSING + 1,
        }
        true
    }
}

impl Sample for Mail {
    fn scattered(rng: &mut Rng, config: Config, stations: [Station; PLACES]) -> Mail {
        let sparsity = rng.pick(&SPARSITIES);
        let mut net = Mail { config, stations, outboxes: (0..PLACES).map(|_| mail::any(rng, sparsity)).collect() };
        for (sender, outbox) in (0..config.k).zip(&mut net.outboxes) {
            mail::bring_into_form(rng, outbox, sender, config);
        }
        net
    }

    fn litter(&mut self, rng: &mut Rng) {
        litter_stations(rng, self.config, &mut self.stations);
        for (sender, outbox) in (0..).zip(&mut self.outboxes) {
            mail::litter(rng, outbox, sender, self.config);
        }
    }

    fn spoil_message(&mut self, rng: &mut Rng) -> bool {
        let Config { k, .. } = self.config;
        if k < 2 {
            return false;
        }
        let sender = rng.station(k);
        let receiver = (sender + 1 + rng.station(k - 1)) % k;
        mail::spoil(rng, &mut self.outboxes[usize::from(sender)], receiver, self.config);
        true
    }
}

/// Past k, and past c in the places below.
fn litter_stations(rng: &mut Rng, Config { k, classes, .. }: Config, stations: &mut [Station; PLACES]) {
    let (below, past) = stations.split_at_mut(k.into());
    below.iter_mut().for_each(|station| aggregate::litter(rng, &mut station.held, classes));
    past.iter_mut().for_each(|place| *place = station::any(rng));
}

/// A net as a caller may hand it over.
pub fn any<N: Sample>(rng: &mut Rng) -> N {
    let mut net: N = if rng.chance(40) { reachable(rng) } else { in_form(rng) };
    if rng.chance(20) {
        nudge(rng, &mut net);
    }
    if rng.chance(25) {
        near_bound(rng, &mut net);
    }
    if rng.chance(40) {
        net.litter(rng);
    }
    if rng.chance(20) {
        spoil(rng, &mut net);
    }
    net
}

/// A net with anything in every place, for a call that fills it.
pub fn junk<N: Sample>(rng: &mut Rng) -> N {
    let mut net: N = in_form(rng);
    net.config_mut().k = 0;
    net.litter(rng);
    *net.config_mut() = Config { k: rng.byte(), classes: rng.byte(), desk: rng.byte(), way: rng.byte() };
    net
}

/// A net on the way from fresh to rest.
fn reachable<N: Sample>(rng: &mut Rng) -> N {
    let map = map::accepted(rng);
    let mut net = N::set_up(&map, aggregate::way(rng));
    let steps = rng.index(Record::full::<N>(&map) + 1).min(LONGEST_WAY);
    let draws = call::draws(rng, steps);
    net.run(&draws);
    net
}

fn in_form<N: Sample>(rng: &mut Rng) -> N {
    let k = map::station_count(rng);
    let (classes, desk, way) = (aggregate::class_count(rng), map::desk(rng, k), aggregate::way(rng));
    let config = Config { k, classes, desk, way };
    in_form_of(rng, config)
}

pub fn in_form_of<N: Sample>(rng: &mut Rng, config: Config) -> N {
    let mut stations = [Station::default(); PLACES];
    for own in 0..config.k {
        stations[usize::from(own)] = station::in_form(rng, own, config);
    }
    N::scattered(rng, config, stations)
}

/// A station of the net, with its number.
fn station_of<'a, N: Sample>(rng: &mut Rng, net: &'a mut N) -> (u8, &'a mut Station) {
    let own = rng.station(net.k());
    (own, &mut net.stations_mut()[usize::from(own)])
}

/// Changes one field of one station within the form.
fn nudge<N: Sample>(rng: &mut Rng, net: &mut N) {
    let config = net.config();
    let (own, station) = station_of(rng, net);
    station::nudge(rng, station, own, config);
}

/// Sums or missing numbers that an answer takes over their bound, often in one class alone.
fn near_bound<N: Sample>(rng: &mut Rng, net: &mut N) {
    let (Config { k, classes, .. }, bound) = (net.config(), rng.pick(&BOUNDS));
    let class = rng.chance(70).then(|| aggregate::class(rng, classes));
    for station in &mut net.stations_mut()[..k.into()] {
        if rng.chance(70) {
            station.held = aggregate::near(rng, classes, class, bound);
        }
    }
}

/// Takes one thing out of form: a field of a station, often by a none, a message, k, c, the desk or the way.
pub fn spoil<N: Sample>(rng: &mut Rng, net: &mut N) {
    let (config, choice) = (net.config(), rng.below(16));
    if choice == 0 {
        net.config_mut().k = rng.pick(&NO_STATION_COUNTS);
    } else if choice == 1 {
        net.config_mut().desk = map::no_desk(rng, config.k);
    } else if choice < 4 {
        net.config_mut().classes = rng.pick(&NO_CLASS_COUNTS);
    } else if choice == 13 {
        net.config_mut().way = rng.pick(&NO_WAYS);
    } else if choice > 13 && !has_none(config.way) {
        let class = aggregate::class(rng, config.classes);
        station_of(rng, net).1.held.sums[class] = NONE;
    } else if choice > 7 || !net.spoil_message(rng) {
        let (own, station) = station_of(rng, net);
        station::spoil(rng, station, own, config);
    }
}
