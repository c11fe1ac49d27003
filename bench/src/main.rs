//! Times of the library through its C interface, beside hand-written Rust for the same calls in the same process.

mod by_hand;
mod library;
mod shapes;
mod timing;

use conformance::ffi::lending::LaidOut;
use conformance::ffi::net::Exports;
use conformance::model::aggregate::SUM;
use conformance::model::map::{stored, Map};
use conformance::model::meet::{Back, Meet};
use conformance::model::net::{Net as Model, Step};
use conformance::model::sheet::length;
use conformance::model::station::Station;
use shapes::{clique, draws, SHAPES};
use std::hint::black_box;
use timing::{shown, times, Timed, Times};

const SIZES: [u8; 4] = [8, 16, 32, 64];

/// Numbers of classes, the least and the most.
const CLASSES: [u8; 2] = [1, 8];

/// A kind of net to be timed, in the library or by hand.
pub trait Net: Clone {
    fn fresh(map: &Map) -> Self;

    fn step(&mut self, step: Step);

    /// Makes the step that a draw picks.
    fn draw(&mut self, draw: u16);

    /// Gives the steps made.
    fn run(&mut self, draws: &[u16]) -> usize;

    /// What is left, to see that both did the same.
    fn stations(&self) -> [Station; 64];
}

impl Net for Meet {
    fn fresh(map: &Map) -> Meet {
        by_hand::meet::fresh(map)
    }

    fn step(&mut self, step: Step) {
        by_hand::meet::step(self, step).expect("the step is allowed");
    }

    fn draw(&mut self, draw: u16) {
        by_hand::meet::draw(self, draw).expect("a step is allowed");
    }

    fn run(&mut self, draws: &[u16]) -> usize {
        by_hand::meet::run(self, draws).expect("the net stays in form").0
    }

    fn stations(&self) -> [Station; 64] {
        self.stations
    }
}

impl Net for by_hand::back::Back {
    fn fresh(map: &Map) -> by_hand::back::Back {
        by_hand::back::fresh(map)
    }

    fn step(&mut self, step: Step) {
        by_hand::back::step(self, step).expect("the step is allowed");
    }

    fn draw(&mut self, draw: u16) {
        by_hand::back::draw(self, draw).expect("a step is allowed");
    }

    fn run(&mut self, draws: &[u16]) -> usize {
        by_hand::back::run(self, draws).expect("the net stays in form").0
    }

    fn stations(&self) -> [Station; 64] {
        self.0.stations
    }
}

#[cfg(feature = "mail")]
impl Net for by_hand::mail::Mail {
    fn fresh(map: &Map) -> by_hand::mail::Mail {
        by_hand::mail::fresh(map)
    }

    fn step(&mut self, step: Step) {
        by_hand::mail::step(self, step).expect("the step is allowed");
    }

    fn draw(&mut self, draw: u16) {
        by_hand::mail::draw(self, draw).expect("a step is allowed");
    }

    fn run(&mut self, draws: &[u16]) -> usize {
        by_hand::mail::run(self, draws).expect("the net stays in form").0
    }

    fn stations(&self) -> [Station; 64] {
        self.stations
    }
}

fn main() {
    println!("Times are the least of several, copying left out; a ratio is the median over batches side by side.\n");
    for classes in CLASSES {
        println!("Classes: {classes}");
        maps(classes);
        nets::<Meet, Meet>("Stations that meet", classes, true);
        nets::<Back, by_hand::back::Back>("Stations that meet, totals carried back", classes, false);
        sheet(classes);
        #[cfg(feature = "mail")]
        nets::<conformance::model::mail::Mail, by_hand::mail::Mail>("Stations with mail", classes, true);
    }
}

/// A bar, where there is one, is the most that the ratio should be.
fn line(what: &str, times: Times, bar: Option<f64>) -> String {
    let (library, by_hand, ratio) = (shown(times.library), shown(times.by_hand), times.ratio);
    let bar = bar.map_or(String::new(), |bar| format!("bar {bar:.1}{}", if ratio > bar { " missed" } else { "" }));
    format!("  {what:<30} library {library:>9}   by hand {by_hand:>9}   ratio {ratio:>5.2}   {bar:<14}")
}

/// Reading and writing a map of 64 stations, all linked: acceptance has the most to look at there.
fn maps(classes: u8) {
    let (map, blank) = (clique(64, classes), Map::empty(0, 0, 0));
    let (laid_out, blank_laid_out) = (map.lay_out(), blank.lay_out());
    let bytes = stored(&map);
    println!("A map of 64 stations, all linked");
    let library = Timed::new(&blank_laid_out, |lent| library::read(black_box(&bytes), lent));
    let by_hand = Timed::new(&blank, |lent| by_hand::map::read(black_box(&bytes), lent).expect("the map is accepted"));
    println!("{}", line("read", times(library, by_hand), None));

    let blank = vec![0; bytes.len()];
    let library = Timed::new(&blank, |lent| library::write(black_box(laid_out), lent));
    let by_hand = Timed::new(&blank, |lent| by_hand::map::write(black_box(&map), lent).expect("the map is accepted"));
    println!("{}\n", line("write", times(library, by_hand), None));
    maps_agree(&map, &bytes);
}

/// Both read and write the same.
fn maps_agree(map: &Map, bytes: &[u8]) {
    let blank = Map::empty(0, 0, 0);
    let (mut read, mut read_by_hand) = (blank.lay_out(), blank);
    library::read(bytes, &mut read);
    by_hand::map::read(bytes, &mut read_by_hand).expect("the map is accepted");
    assert_eq!((Map::take_back(&read), read_by_hand), (*map, *map));
    let (mut written, mut written_by_hand) = (vec![0; bytes.len()], vec![0; bytes.len()]);
    library::write(map.lay_out(), &mut written);
    by_hand::map::write(map, &mut written_by_hand).expect("the map is accepted");
    assert_eq!((&written[..], &written_by_hand[..]), (bytes, bytes));
}

/// The sheet of 64 stations, all linked, after their report.
fn sheet(classes: u8) {
    let map = clique(64, classes);
    let mut net = by_hand::meet::fresh(&map);
    Net::run(&mut net, &draws(&map, 0));
    let (laid_out, line_of_net) = (map.lay_out(), net.lay_out());
    let blank = vec![0; length(&map)];
    println!("A sheet of 64 stations, {} bytes", blank.len());
    let library = Timed::new(&blank, |lent| library::sheet(black_box(laid_out), black_box(&line_of_net), lent));
    let by_hand = Timed::new(&blank, |lent| {
        by_hand::sheet::lay_out(black_box(&map), black_box(&net), lent).expect("the lot is reported");
    });
    println!("{}\n", line("sheet", times(library, by_hand), None));
    let (mut given, mut given_by_hand) = (blank.clone(), blank);
    library::sheet(laid_out, &line_of_net, &mut given);
    by_hand::sheet::lay_out(&map, &net, &mut given_by_hand).expect("the lot is reported");
    assert!(given == given_by_hand, "the two lay out different sheets");
}

/// One kind of net: a draw and a step on 64 stations, then whole runs. For totals carried back no bar was asked for.
fn nets<M, H>(kind: &str, classes: u8, has_bars: bool)
where
    M: Model + LaidOut,
    M::Layout: Clone + Exports,
    H: Net,
{
    println!("{kind}: one draw and one step are the mean over a whole wave; a run is from fresh to rest");
    for (shape, map_of) in SHAPES {
        let map = map_of(64, classes);
        one_by_one::<M, H>(shape, &map, &draws(&map, M::tells(&map)), has_bars);
        let mut before = None;
        for k in SIZES {
            let map = map_of(k, classes);
            let draws = draws(&map, M::tells(&map));
            let times = whole_run::<library::Net<M>, H>(&map, &draws);
            let what = format!("{shape}, run of {k}, {} steps", draws.len());
            println!("{}{}", line(&what, times, bar_of_run(k).filter(|_| has_bars)), growth(before, times));
            before = Some(times);
        }
    }
    println!();
}

fn bar_of_run(k: u8) -> Option<f64> {
    match k {
        8 => Some(2.5),
        64 => Some(2.0),
        _ => None,
    }
}

/// From the size before: the library's, that by hand, and the first over the second.
fn growth(before: Option<Times>, times: Times) -> String {
    before.map_or(String::new(), |before| {
        let (library, by_hand) = (times.library / before.library, times.by_hand / before.by_hand);
        format!("   growth {library:>5.2}, by hand {by_hand:>5.2}: {:.2}", times.ratio / before.ratio)
    })
}

fn one_by_one<M, H>(shape: &str, map: &Map, draws: &[u16], has_bars: bool)
where
    M: Model + LaidOut,
    M::Layout: Clone + Exports,
    H: Net,
{
    let steps = steps_of::<M>(map, draws);
    let (library, by_hand) = (library::Net::<M>::fresh(map), H::fresh(map));
    let drawn = times(
        Timed::new(&library, |net| draws.iter().for_each(|&draw| net.draw(draw))),
        Timed::new(&by_hand, |net| draws.iter().for_each(|&draw| net.draw(draw))),
    );
    println!("{}", line(&format!("{shape}, one draw of 64"), drawn.of_each(draws.len()), has_bars.then_some(2.5)));
    let stepped = times(
        Timed::new(&library, |net| steps.iter().for_each(|&step| net.step(step))),
        Timed::new(&by_hand, |net| steps.iter().for_each(|&step| net.step(step))),
    );
    println!("{}", line(&format!("{shape}, one step of 64"), stepped.of_each(steps.len()), None));
}

/// The steps that draws pick, from the model.
fn steps_of<M: Model>(map: &Map, draws: &[u16]) -> Vec<Step> {
    let mut net = M::set_up(map, SUM);
    draws.iter().map(|&draw| net.draw(draw).expect("a step is allowed")).collect()
}

fn whole_run<L: Net, H: Net>(map: &Map, draws: &[u16]) -> Times {
    let (library, by_hand) = (L::fresh(map), H::fresh(map));
    assert!(after(&library, draws) == after(&by_hand, draws), "the two leave different stations");
    times(
        Timed::new(&library, |net| assert_eq!(net.run(draws), draws.len())),
        Timed::new(&by_hand, |net| assert_eq!(net.run(draws), draws.len())),
    )
}

fn after<N: Net>(fresh: &N, draws: &[u16]) -> [Station; 64] {
    let mut net = fresh.clone();
    net.run(draws);
    net.stations()
}
