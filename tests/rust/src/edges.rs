//! Document 01's "Edges" and its example of the program's output, with the lines and the largest total of document 02,
//! request 1, and the edges of requests 1, 2, 4, 5, 7 and 8, for any subject.

use crate::calls::{MapCalls, NetCalls, SheetCalls, StationCalls};
use crate::gen::map::all_linked;
use crate::gen::net::Sample;
use crate::gen::station::events;
use crate::model::aggregate::{Aggregate, Cell, GREATEST, LEAST, NONE, NUMBER, SUM};
use crate::model::demand::Record;
use crate::model::map::{stored, Map};
use crate::model::meet::{Back, Meet, ANSWER, PASS, REPORT, TELL, TOLD, WAKE};
use crate::model::net::{Config, Net, Step};
use crate::model::refusal::{number, Cause, Refusal};
use crate::model::station::{Event, Process, Station, ACTIVE, FINISHED};
use crate::model::{CLASSES, PLACES};

const TRIANGLE_OUTPUT: &str = "\
wake 0 1
wake 0 2
pass 1 2
pass 2 1
answer 1 0 7 0
answer 2 0 11 0
report 0 23 0
lot 42 steps 7 links 3
";

/// The same where station 1 has no reading.
const LAMP_FAILED_OUTPUT: &str = "\
wake 0 1
wake 0 2
pass 1 2
pass 2 1
answer 1 0 0 1
answer 2 0 11 0
report 0 16 1
lot 42 steps 7 links 3
";

/// The triangle with two classes.
const TWO_CLASSES_OUTPUT: &str = "\
wake 0 1
wake 0 2
pass 1 2
pass 2 1
answer 1 0 7 0 0 1
answer 2 0 11 0 3 0
report 0 23 0 7 1
lot 42 steps 7 links 3
";

const TRIANGLE_CHECK_WORD: u32 = 4_294_180_746;

/// The head "sends 4294967295 when its lamp failed"; the count before it is the largest reading.
const NO_READING: u32 = 4_294_967_295;
const LARGEST_COUNT: u32 = 4_294_967_294;

const LARGEST_TOTAL: u64 = 274_877_906_816;

/// The counts of a station, and its set.
type Row<const C: usize> = ([u32; C], u64);

fn map_of<const C: usize>(lot: u64, rows: &[Row<C>]) -> Map {
    let mut map = Map::empty(rows.len() as u8, C as u8, lot);
    for (i, &(counts, neighbours)) in rows.iter().enumerate() {
        map.counts[i][..C].copy_from_slice(&counts);
        map.neighbours[i] = neighbours;
    }
    map
}

fn alone() -> Map {
    map_of(1, &[([9], 0)])
}

fn pair() -> Map {
    map_of(2, &[([3], 2), ([4], 1)])
}

fn triangle() -> Map {
    map_of(42, &[([5], 6), ([7], 5), ([11], 3)])
}

/// The triangle where station 1 has no reading.
fn lamp_failed() -> Map {
    map_of(42, &[([5], 6), ([NO_READING], 5), ([11], 3)])
}

/// The triangle with a second class, in which station 1 has no reading.
fn two_classes() -> Map {
    map_of(42, &[([5, 4], 6), ([7, NO_READING], 5), ([11, 3], 3)])
}

/// The triangle with the classes of the growers: stem punctures, finger bruises and russet.
fn three_classes() -> Map {
    map_of(42, &[([5, NO_READING, 2], 6), ([7, 1, NO_READING], 5), ([11, 3, NO_READING], 3)])
}

/// A sum and a missing number for each class, zero past them.
fn held<const C: usize>(cells: [(u64, u8); C]) -> Aggregate {
    Aggregate::of(cells.map(|(sum, missing)| Cell { sum, missing }))
}

/// A record of station 1 that waits for nothing.
fn active(classes: u8, held: Aggregate) -> Process {
    Process {
        own: 1,
        classes,
        desk: 0,
        way: SUM,
        station: Station { held, unstarted: 0, parent: 0, waits: 0, state: ACTIVE },
    }
}

/// One station: missing numbers at their bound, in a record and handed over. "A missing number above 64 is out of form;
/// handed over, it gets 12."
pub fn stations(subject: &impl StationCalls) {
    // of the record, of the answer that it takes, its number, of the record left
    let taken = [
        (0, 63, 0, 63),
        (0, 64, 0, 64),
        (64, 0, 0, 64),
        (64, 1, 0, 65),
        (64, 64, 0, 128),
        (0, 65, 12, 0),
        (64, 255, 12, 64),
        (65, 0, 11, 65),
        (255, 65, 11, 255),
    ];
    for (before, handed_over, due, after) in taken {
        let record = held([(7, before)]);
        let left = held([(if due == 0 { 18 } else { 7 }, after)]);
        takes(subject, active(1, record), held([(11, handed_over)]), due, left);
    }
    classes_of_a_station(subject);
    what_is_given(subject);
    no_class_count(subject);
    desks_of_a_station(subject);
}

fn takes(subject: &impl StationCalls, mut process: Process, answer: Aggregate, due: u8, left: Aggregate) {
    let before = process;
    let (taken, _) = subject.event(&mut process, Event::TakeAnswer(answer));
    assert_eq!(number(&taken), due, "{before:?} takes {answer:?}");
    assert_eq!(process, active(before.classes, left), "{before:?} takes {answer:?}");
}

/// Each class is joined with its own and tested by itself; past c any numbers may stand, and stay.
fn classes_of_a_station(subject: &impl StationCalls) {
    const BELOW: u64 = (1 << 62) - 1;
    const BEYOND: u64 = 1 << 62;
    let record = held([(7, 1), (0, 64), (BEYOND, 65), (u64::MAX, 255)]);
    let left = |first, second| held([first, second, (BEYOND, 65), (u64::MAX, 255)]);
    // of two classes, what is handed over, its number, and the first two classes of the record left
    let taken = [
        (held([(11, 2), (5, 0)]), 0, ((18, 3), (5, 64))),
        (held([(11, 2), (5, 0), (u64::MAX, 255), (BEYOND, 65)]), 0, ((18, 3), (5, 64))),
        (held([(BELOW, 64), (BELOW, 1)]), 0, ((BELOW + 7, 65), (BELOW, 65))),
        (held([(BEYOND, 0), (0, 0)]), 12, ((7, 1), (0, 64))),
        (held([(0, 0), (BEYOND, 0)]), 12, ((7, 1), (0, 64))),
        (held([(0, 0), (0, 65)]), 12, ((7, 1), (0, 64))),
        (held([(0, 255), (0, 0)]), 12, ((7, 1), (0, 64))),
    ];
    for (answer, due, (first, second)) in taken {
        takes(subject, active(2, record), answer, due, left(first, second));
    }
    takes(subject, active(3, record), held([(0, 0)]), 11, record);
    takes(subject, active(2, held([(0, 0), (0, 65)])), held([(0, 0)]), 11, held([(0, 0), (0, 65)]));
    takes(subject, active(2, held([(0, 0), (BEYOND, 0)])), held([(0, 0)]), 11, held([(0, 0), (BEYOND, 0)]));
}

/// "What a station gives or posts has zero there"; the record keeps what it has, and a refusal gives nothing.
fn what_is_given(subject: &impl StationCalls) {
    let cells = [(5, 0), (0, 1), (1 << 62, 65), (9, 9)];
    for (own, event, refused) in [(0, Event::Report, Event::SendAnswer), (1, Event::SendAnswer, Event::Report)] {
        let mut process = Process { own, ..active(2, held(cells)) };
        let before = process;
        let nothing = Aggregate::default();
        assert_eq!(subject.event(&mut process, refused), (Err(Cause::NotAllowed.alone()), nothing));
        assert_eq!(process, before);
        assert_eq!(subject.event(&mut process, event), (Ok(Some(0)), held([(5, 0), (0, 1)])));
        assert_eq!(process.station, Station { state: FINISHED, ..before.station });
    }
}

/// "A net or station with such a c is out of form."
fn no_class_count(subject: &impl StationCalls) {
    for classes in [0, 9, 255] {
        let mut process = active(classes, Aggregate::default());
        for event in events(200, held([(1 << 62, 65)])) {
            let nothing = Aggregate::default();
            assert_eq!(subject.event(&mut process, event), (Err(Cause::OutOfForm.alone()), nothing));
            assert_eq!(process, active(classes, nothing));
        }
    }
}

/// "In the rules .. the desk takes the place of station 0": it reports, may be its own parent and never answers, and every
/// other station, 0 among them, answers; "one not below k is out of form", and "for one station 64 stands for k".
fn desks_of_a_station(subject: &impl StationCalls) {
    let (given, nothing) = (held([(5, 0)]), Aggregate::default());
    let (refused, out_of_form) = (Err(Cause::NotAllowed.alone()), Err(Cause::OutOfForm.alone()));
    for desk in [0, 1, 5, 63] {
        for own in [0, 1, 5, 63] {
            for parent in [2, own] {
                let station = Station { parent, ..active(1, given).station };
                let before = Process { own, desk, station, ..active(1, given) };
                for (event, is_at_desk) in [(Event::Report, true), (Event::SendAnswer, false)] {
                    let due = match (own == desk, parent == own) {
                        (false, true) => (out_of_form, nothing),
                        (at_desk, _) if at_desk == is_at_desk => (Ok(Some(parent)), given),
                        _ => (refused, nothing),
                    };
                    let mut process = before;
                    assert_eq!(subject.event(&mut process, event), due, "{event:?} on {before:?}");
                    let state = if due.0.is_ok() { FINISHED } else { ACTIVE };
                    assert_eq!(process, Process { station: Station { state, ..station }, ..before });
                }
            }
        }
    }
    for desk in [64, 65, 255] {
        let before = Process { desk, ..active(1, given) };
        for event in events(200, held([(1 << 62, 65)])) {
            let mut process = before;
            assert_eq!(subject.event(&mut process, event), (out_of_form, nothing));
            assert_eq!(process, before);
        }
    }
}

/// Maps: what is refused, and with which station.
pub fn maps(subject: &impl MapCalls) {
    let rejected: [(&[Row<1>], Refusal); 4] = [
        (&[([0], 1)], Cause::NamesItself.with(0)),
        (&[([0], 0), ([0], 0)], Cause::NoChain.with(1)),
        (&[([0], 2), ([0], 0)], Cause::NotMutual.with(0)),
        (&[([0], 4), ([0], 0)], Cause::NamesBeyond.with(0)),
    ];
    for (rows, refusal) in rejected {
        let map = map_of(0, rows);
        refused(subject, &map, refusal);
        assert_eq!(read(subject, &stored(&map)), Err(refusal));
    }
    assert_eq!(read(subject, &[0; 15]), Err(Cause::UnderTrailer.alone()));
    assert_eq!(read(subject, &[0; 28]), Err(Cause::Classes.alone()));
    let links = [(alone(), 0), (pair(), 1), (triangle(), 3), (all_linked(&[LARGEST_COUNT]), 2_016)];
    for (map, count) in links {
        assert_eq!(subject.links(&map), Ok(count));
    }
    is_stored(subject, &triangle(), 52, TRIANGLE_CHECK_WORD);
    is_stored(subject, &two_classes(), 64, 4_293_918_584);
    is_stored(subject, &three_classes(), 76, 4_293_656_431);
    class_counts_handed_over(subject);
    row_lengths(subject);
    lots(subject);
    sizes(subject);
    desks(subject);
}

/// Every call on a map handed over refuses it alike.
fn refused(subject: &impl MapCalls, map: &Map, refusal: Refusal) {
    let mut buffer = [0xa5; 3_000];
    assert_eq!(subject.accept(map), Err(refusal));
    assert_eq!(subject.links(map), Err(refusal));
    assert_eq!(subject.write(map, &mut buffer), Err(refusal));
    assert_eq!(buffer, [0xa5; 3_000], "a refusal leaves the buffer");
}

/// Over a map with something in every place.
fn read(subject: &impl MapCalls, bytes: &[u8]) -> Result<Map, Refusal> {
    let full = Map { k: 9, classes: 9, desk: 9, lot: 9, counts: [[9; CLASSES]; PLACES], neighbours: [9; PLACES] };
    let mut map = full;
    let result = subject.read(bytes, &mut map);
    assert!(result.is_ok() || map == full, "a refusal leaves the map");
    result.map(|()| map)
}

/// The length and the check word, that of the triangle as document 01 gives it.
fn is_stored(subject: &impl MapCalls, map: &Map, length: usize, check_word: u32) {
    let mut buffer = vec![0; length];
    assert_eq!(subject.write(map, &mut buffer[..length - 1]), Err(Cause::BufferTooSmall.with(length as u32)));
    assert_eq!(subject.write(map, &mut buffer), Ok(length as u32));
    assert_eq!(buffer[length - 4..], check_word.to_le_bytes());
    assert_eq!(read(subject, &buffer), Ok(*map));
}

/// "A map handed over with c not 1 to 8 gets 2, before 3."
fn class_counts_handed_over(subject: &impl MapCalls) {
    for classes in [0, 9, 255] {
        for k in [0, 3, 64, 65, 255] {
            refused(subject, &Map { k, classes, ..triangle() }, Cause::Classes.alone());
        }
    }
    for k in [0, 65, 255] {
        refused(subject, &Map { k, ..triangle() }, Cause::StationCount.alone());
    }
}

/// One station, its counts and its trailer under every row length: 2 unless it is one of 12, 16, .. 40; then 4 where the
/// distance goes by another, 5 where a byte of the rows is missing, else a map with as many counts.
fn row_lengths(subject: &impl MapCalls) {
    for row in [0, 8, 11, 12, 13, 14, 16, 20, 24, 28, 32, 36, 40, 44, 12 << 8, 256 + 12, 65_535] {
        let is_one = (12..=40).contains(&row) && row % 4 == 0;
        for distance in [row, 12, 40] {
            let due = match (is_one, distance == row) {
                (false, _) => Err(Cause::Classes.alone()),
                (true, false) => Err(Cause::Distance.alone()),
                (true, true) => Ok(((row - 8) / 4) as u8),
            };
            let bytes = one_row(row, distance);
            let given = read(subject, &bytes);
            assert_eq!(given.map(|map| map.classes), due, "row length {row}, distance {distance}");
            if given.is_ok() {
                assert_eq!(read(subject, &bytes[1..]), Err(Cause::RowsMissing.alone()));
            }
        }
    }
}

/// The triangle with a lot: bits 32 to 47 in the upper half of the distance's field, and "18 when a map handed over for
/// writing has a lot of 2^48 or more, after 10 and before 15". No other call looks at it.
fn lots(subject: &impl MapCalls) {
    for lot in [0, 42, 4_294_967_295, 4_294_967_296, 281_474_976_710_655] {
        let map = Map { lot, ..triangle() };
        let mut buffer = [0; 52];
        assert_eq!(subject.write(&map, &mut buffer), Ok(52));
        let bytes = lot.to_le_bytes();
        assert_eq!(buffer[40..48], [&[36, 0], &bytes[4..6], &bytes[..4]].concat(), "lot {lot}");
        assert_eq!(read(subject, &buffer), Ok(map));
    }
    for lot in [281_474_976_710_656, u64::MAX] {
        let map = Map { lot, ..triangle() };
        for length in [0, 51, 52] {
            let mut buffer = [0xa5; 52];
            assert_eq!(subject.write(&map, &mut buffer[..length]), Err(Cause::LotTooLong.alone()));
            assert_eq!(buffer, [0xa5; 52], "a refusal leaves the buffer");
        }
        assert_eq!((subject.accept(&map), subject.links(&map)), (Ok(()), Ok(3)));
        refused(subject, &map_of(lot, &[([0], 0), ([0], 0)]), Cause::NoChain.with(1));
    }
}

/// The triangle with a desk: "the upper byte of the trailer's 2-byte field for k names the desk; k is the lower byte", and
/// "equal maps agree in the desk too". "19 when the desk is not below k, after 3": handed over before 7, read before 4.
fn desks(subject: &impl MapCalls) {
    for desk in [0, 1, 2] {
        let map = Map { desk, ..triangle() };
        let mut buffer = [0; 52];
        assert_eq!(subject.write(&map, &mut buffer), Ok(52));
        assert_eq!(buffer[36..40], [3, desk, 12, 0]);
        assert_eq!(read(subject, &buffer), Ok(map));
        assert_eq!((subject.accept(&map), subject.links(&map)), (Ok(()), Ok(3)));
    }
    let no_desk = Cause::Desk.alone();
    for desk in [3, 64, 255] {
        let map = Map { desk, ..triangle() };
        refused(subject, &map, no_desk);
        refused(subject, &Map { neighbours: [1; PLACES], lot: u64::MAX, ..map }, no_desk);
        refused(subject, &Map { classes: 0, ..map }, Cause::Classes.alone());
        assert_eq!(read(subject, &stored(&map)), Err(no_desk));
        assert_eq!(read(subject, &stored(&map)[1..]), Err(no_desk), "before 5");
    }
    for (k, desk) in [(0, 0), (0, 1), (65, 64), (65, 65), (255, 255)] {
        refused(subject, &Map { k, desk, ..triangle() }, Cause::StationCount.alone());
    }
    let last = Map { desk: 63, ..chain(64, 1) };
    assert_eq!(subject.links(&last), Ok(63));
    assert_eq!(read(subject, &stored(&last)), Ok(last));
    refused(subject, &Map { desk: 64, ..chain(64, 1) }, no_desk);
    chains_lead_to_the_desk(subject);
    trailers_with_desks(subject);
}

/// Stations 0 and 1 are linked, and station 2 is alone.
fn chains_lead_to_the_desk(subject: &impl MapCalls) {
    for (desk, apart) in [(0, 2), (1, 2), (2, 0)] {
        let map = Map { desk, ..map_of(42, &[([5], 2), ([7], 1), ([11], 0)]) };
        refused(subject, &map, Cause::NoChain.with(apart));
        assert_eq!(read(subject, &stored(&map)), Err(Cause::NoChain.with(apart)));
    }
}

/// One station and its trailer, under every k and desk, with a distance that fits k or not: 3, then 19, then 4.
fn trailers_with_desks(subject: &impl MapCalls) {
    for (k, desk, distance, due) in [
        (1, 0, 12, Ok(())),
        (1, 0, 13, Err(4)),
        (1, 1, 12, Err(19)),
        (1, 1, 13, Err(19)),
        (1, 255, 12, Err(19)),
        (0, 0, 0, Err(3)),
        (0, 1, 13, Err(3)),
        (65, 0, 780, Err(3)),
        (65, 65, 780, Err(3)),
        (64, 63, 768, Err(5)),
        (64, 64, 768, Err(19)),
    ] {
        let bytes = trailed([k, desk], 12, distance);
        let given = read(subject, &bytes);
        assert_eq!(given.map(|_| ()).map_err(|refusal| refusal.number), due, "k {k}, desk {desk}, distance {distance}");
    }
}

/// A row of counts of 7 and an empty set, and a trailer; the words add to zero.
fn one_row(row: u16, distance: u16) -> Vec<u8> {
    trailed([1, 0], row, distance)
}

/// The same with any k and desk.
fn trailed([k, desk]: [u8; 2], row: u16, distance: u16) -> Vec<u8> {
    let counts = if (8..100).contains(&row) { (usize::from(row) - 8) / 4 } else { 1 };
    let mut bytes: Vec<u8> = [7u32.to_le_bytes()].repeat(counts).concat();
    bytes.extend([0; 8]);
    let words = [u32::from(k) | u32::from(desk) << 8 | u32::from(row) << 16, distance.into(), 42];
    let sum = words.iter().fold(7 * counts as u32, |sum, word| sum.wrapping_add(*word));
    bytes.extend(words.into_iter().chain([sum.wrapping_neg()]).flat_map(u32::to_le_bytes));
    bytes
}

/// A count that says where it stands, and now and then no reading.
fn count_at(station: usize, class: usize) -> u32 {
    match (station + class) % 7 {
        3 => NO_READING,
        _ => (1_000 * station + class) as u32,
    }
}

/// Stations in a row, by k and c.
fn chain(k: usize, classes: usize) -> Map {
    let mut map = Map::empty(k as u8, classes as u8, 42);
    for i in 0..k {
        map.counts[i][..classes].copy_from_slice(&Vec::from_iter((0..classes).map(|class| count_at(i, class))));
        if i > 0 {
            map.neighbours[i] |= 1 << (i - 1);
            map.neighbours[i - 1] |= 1 << i;
        }
    }
    map
}

/// Every c with the smallest and the largest k.
fn every_size() -> impl Iterator<Item = (usize, usize)> {
    [1, 2, 64].into_iter().flat_map(|k| (1..=8).map(move |classes| (k, classes)))
}

/// "Maps written are read back equal", with (8 + 4 × c) × k + 16 bytes; of 64 stations and 8 classes they are 2,576.
fn sizes(subject: &impl MapCalls) {
    for (k, classes) in every_size() {
        let (map, length) = (chain(k, classes), (8 + 4 * classes) * k + 16);
        let mut buffer = [0xa5; 2_576];
        assert_eq!(subject.write(&map, &mut buffer), Ok(length as u32));
        assert_eq!(read(subject, &buffer[..length]), Ok(map));
        assert!(buffer[length..].iter().all(|&byte| byte == 0xa5), "what stands past the map is left");
    }
}

/// Both kinds of net: steps made, and what is reported.
pub fn nets<N: Sample>(subject: &impl NetCalls<N>) {
    let once = |sum, missing| Some(held([(sum, missing)]));
    let every_class = [LARGEST_COUNT, NO_READING, 1, 0, LARGEST_COUNT, 2, NO_READING, 3];
    let totals = [(LARGEST_TOTAL, 0), (0, 64), (64, 0), (0, 0), (LARGEST_TOTAL, 0), (128, 0), (0, 64), (192, 0)];
    let runs = [
        (alone(), 1, 1, once(9, 0)),
        (pair(), 3, 3, once(7, 0)),
        (triangle(), 7, 7, once(23, 0)),
        (triangle(), 6, 6, None),
        (triangle(), 8, 7, once(23, 0)),
        (triangle(), 0, 0, None),
        (all_linked(&[LARGEST_COUNT]), 4_033, 4_033, once(LARGEST_TOTAL, 0)),
        (map_of(1, &[([LARGEST_COUNT], 0)]), 1, 1, once(LARGEST_COUNT.into(), 0)),
        (map_of(1, &[([NO_READING], 0)]), 1, 1, once(0, 1)),
        (lamp_failed(), 7, 7, once(16, 1)),
        (all_linked(&[NO_READING]), 4_033, 4_033, once(0, 64)),
        (two_classes(), 7, 7, Some(held([(23, 0), (7, 1)]))),
        (three_classes(), 7, 7, Some(held([(23, 0), (4, 1), (2, 2)]))),
        (all_linked(&every_class), 4_033, 4_033, Some(held(totals))),
    ];
    for (map, draws, steps, reported) in runs {
        let mut net: N = fresh(subject, &map);
        let run = subject.run(&mut net, &vec![0; draws]);
        assert_eq!((run.refusal, run.steps, run.at_rest), (None, steps, reported.is_some()));
        assert_eq!(run.at_rest.then(|| net.stations()[0].held), reported);
    }
    report_is_last(subject);
    missing_at_its_bound(subject);
    classes_of_a_net(subject);
    desks_of_a_net(subject);
    ways_of_a_net(subject);
}

/// "Each class reports its own total", for every c.
fn classes_of_a_net<N: Sample>(subject: &impl NetCalls<N>) {
    for (k, classes) in every_size() {
        let mut net: N = fresh(subject, &chain(k, classes));
        assert!(subject.run(&mut net, &vec![0; 2 * k - 1]).at_rest);
        for class in 0..8 {
            let counts = (0..k).filter(|_| class < classes).map(|station| count_at(station, class));
            let (missing, readings): (Vec<u32>, Vec<u32>) = counts.partition(|&count| count == NO_READING);
            let due = Cell { sum: readings.into_iter().map(u64::from).sum(), missing: missing.len() as u8 };
            assert_eq!(net.stations()[0].held.cell(class), due, "class {class} of {classes}, {k} stations");
        }
    }
    for classes in [0, 9, 255] {
        let mut net: N = fresh(subject, &triangle());
        net.config_mut().classes = classes;
        is_out_of_form(subject, net);
    }
}

/// Stations in a row with a desk at either end, beside it and between: fresh nets, reports, and desks that are none.
fn desks_of_a_net<N: Sample>(subject: &impl NetCalls<N>) {
    for (k, desk) in [(1, 0), (2, 0), (2, 1), (3, 1), (8, 5), (8, 7), (64, 0), (64, 1), (64, 63)] {
        let map = Map { desk, ..chain(k, 1) };
        let mut net: N = fresh(subject, &map);
        let at_desk = |own: usize| own == usize::from(desk);
        for (own, station) in net.stations()[..k].iter().enumerate() {
            assert_eq!(station.state == ACTIVE, at_desk(own), "the desk is active, others are asleep");
            assert_eq!(station.parent, desk, "parents are the desk");
        }
        for (sender, outbox) in net.outboxes().iter().enumerate() {
            assert_eq!(outbox.starts, if at_desk(sender) { map.neighbours[sender] } else { 0 }, "the first starts");
        }
        let report = |number| Step { kind: N::REPORT, sender: number, receiver: number };
        let due = if k == 1 { Ok(report(desk)) } else { Err(Cause::NotAllowed.alone()) };
        assert_eq!(subject.step(&mut net.clone(), report(desk)), due, "k {k}, desk {desk}");
        for other in (0..k as u8).filter(|&other| other != desk) {
            assert_eq!(subject.step(&mut net, report(other)), Err(Cause::OutOfRange.alone()), "a report at {other}");
        }
        assert!(!subject.run(&mut net, &vec![0; 2 * k - 2]).at_rest);
        assert_eq!(subject.draw(&mut net, 0), Ok(report(desk)), "every order ends in that desk's report");
        assert_eq!(net.stations()[usize::from(desk)].held, map.total(SUM));
        assert!(subject.run(&mut net, &[]).at_rest);
    }
    for desk in [3, 64, 255] {
        let mut net: N = fresh(subject, &triangle());
        net.config_mut().desk = desk;
        is_out_of_form(subject, net);
        let mut unopened: N = fresh(subject, &alone());
        let before = unopened.clone();
        let opened = subject.fresh(&Map { desk, ..triangle() }, SUM, &mut unopened);
        assert_eq!(opened, Err(Cause::Desk.alone()));
        assert!(unopened == before, "a refusal leaves the net");
    }
}

/// Every call refuses the net with 11 and leaves it.
fn is_out_of_form<N: Sample>(subject: &impl NetCalls<N>, mut net: N) {
    let before = net.clone();
    let out_of_form = Cause::OutOfForm.alone();
    assert_eq!(subject.step(&mut net, Step { kind: 0, sender: 99, receiver: 99 }), Err(out_of_form));
    assert_eq!(subject.draw(&mut net, 0), Err(out_of_form));
    let run = subject.run(&mut net, &[0]);
    assert_eq!((run.refusal, run.steps, run.at_rest), (Some(out_of_form), 0, false));
    assert!(net == before, "a refusal leaves the net");
}

/// A desk that has 63 missing readings takes one more and reports; one that has 64 leaves the form with it, a single draw
/// accepted, a run stopped there with 11. Past c as many may stand as will.
fn missing_at_its_bound<N: Sample>(subject: &impl NetCalls<N>) {
    let out_of_form = Cause::OutOfForm.alone();
    for (class, before, refusal, steps) in [
        (0, 63, None, 3),
        (0, 64, Some(out_of_form), 2),
        (1, 63, None, 3),
        (1, 64, Some(out_of_form), 2),
        (2, 254, None, 3),
    ] {
        let mut net: N = fresh(subject, &map_of(2, &[([3, 3], 2), ([NO_READING; 2], 1)]));
        net.stations_mut()[0].held.missing[class] = before;
        let mut drawn = net.clone();
        let run = subject.run(&mut net, &[0; 4]);
        assert_eq!((run.refusal, run.steps, run.at_rest), (refusal, steps, refusal.is_none()));
        let mut due = held([(3, 1), (3, 1)]);
        due.missing[class] = before + u8::from(class < 2);
        assert_eq!(net.stations()[0].held, due);
        for _ in 0..steps {
            subject.draw(&mut drawn, 0).expect("a draw that leaves the form is accepted");
        }
        assert!(drawn == net, "a run stops where its draws lead");
        assert_eq!(subject.draw(&mut drawn, 0), Err(refusal.unwrap_or(Cause::NothingAllowed.alone())));
    }
}

/// "A report on the fresh triangle: 13. A draw after its report: 14."
fn report_is_last<N: Sample>(subject: &impl NetCalls<N>) {
    let mut net: N = fresh(subject, &triangle());
    let report = Step { kind: N::REPORT, sender: 0, receiver: 0 };
    assert_eq!(subject.step(&mut net, report), Err(Cause::NotAllowed.alone()));
    subject.run(&mut net, &vec![0; Record::whole(&triangle())]);
    assert_eq!(subject.draw(&mut net, 0), Err(Cause::NothingAllowed.alone()));
}

fn fresh<N: Sample>(subject: &impl NetCalls<N>, map: &Map) -> N {
    opened(subject, map, SUM)
}

fn opened<N: Sample>(subject: &impl NetCalls<N>, map: &Map, way: u8) -> N {
    let mut net = N::set_up(&alone(), SUM);
    subject.fresh(map, way, &mut net).expect("the map is accepted");
    net
}

/// The four ways (document 02, request 10): three heads, of which two classes miss readings, and three without any, in two
/// orders of steps; ways that there are none of, opened and in a net; none where it is out of form.
fn ways_of_a_net<N: Sample>(subject: &impl NetCalls<N>) {
    let silent = map_of(42, &[([NO_READING], 6), ([NO_READING], 5), ([NO_READING], 3)]);
    for (way, [a, b, c], none) in [
        (SUM, [(23, 0), (4, 1), (2, 2)], 0),
        (GREATEST, [(11, 0), (3, 1), (2, 2)], NONE),
        (LEAST, [(5, 0), (1, 1), (2, 2)], NONE),
        (NUMBER, [(3, 0), (2, 1), (1, 2)], 0),
    ] {
        for (map, due) in [(three_classes(), held([a, b, c])), (silent, held([(none, 3)]))] {
            for draws in [[0; 7], [0, 1, 0, 0, 0, 0, 0]] {
                let mut net: N = opened(subject, &map, way);
                assert!(subject.run(&mut net, &draws).steps == 7 && net.config().way == way);
                assert_eq!(net.stations()[0].held, due, "way {way}");
            }
        }
        let mut net: N = opened(subject, &three_classes(), way);
        net.stations_mut()[2].held.sums[1] = NONE;
        if none == NONE {
            assert_eq!(subject.run(&mut net, &[0; 7]).steps, 7, "none is in form under way {way}");
        } else {
            is_out_of_form(subject, net);
        }
    }
    for way in [4, 128, 255] {
        let mut net: N = fresh(subject, &triangle());
        let before = net.clone();
        assert_eq!(subject.fresh(&triangle(), way, &mut net), Err(Cause::OutOfRange.alone()), "way {way}");
        assert_eq!(subject.fresh(&Map { desk: 3, ..triangle() }, way, &mut net), Err(Cause::Desk.alone()));
        assert!(net == before, "a refusal leaves the net");
        net.config_mut().way = way;
        is_out_of_form(subject, net);
    }
}

/// A step, and what its sender holds after it.
type Made<const C: usize> = (u8, u8, u8, [(u64, u8); C]);

/// Stations that meet: the two orders of the triangle, step by step, with what answers and report give; then the same
/// orders where station 1 has no reading, and with a second class.
pub fn orders(subject: &impl NetCalls<Meet>) {
    let chain = [0, 1, 0, 0, 0, 0, 0];
    let [first, third] = [[(5, 0)], [(11, 0)]];
    check_order(subject, &triangle(), [0; 7], at_once([first, [(7, 0)], third, [(23, 0)]]));
    check_order(subject, &triangle(), chain, in_a_chain([first, [(7, 0)], third, [(23, 0)]], [(18, 0)]));
    check_order(subject, &lamp_failed(), [0; 7], at_once([first, [(0, 1)], third, [(16, 1)]]));
    check_order(subject, &lamp_failed(), chain, in_a_chain([first, [(0, 1)], third, [(16, 1)]], [(11, 1)]));
    let by_two = [[(5, 0), (4, 0)], [(7, 0), (0, 1)], [(11, 0), (3, 0)], [(23, 0), (7, 1)]];
    check_order(subject, &two_classes(), [0; 7], at_once(by_two));
    check_order(subject, &two_classes(), chain, in_a_chain(by_two, [(18, 0), (3, 1)]));
    let [first, second, third, all] = [[(5, 0)], [(7, 0)], [(11, 0)], [(23, 0)]];
    let desk_at_1 = [
        (WAKE, 1, 0, second),
        (WAKE, 0, 2, first),
        (PASS, 1, 2, second),
        (PASS, 2, 1, third),
        (ANSWER, 2, 0, third),
        (ANSWER, 0, 1, [(16, 0)]),
        (REPORT, 1, 1, all),
    ];
    check_order(subject, &Map { desk: 1, ..triangle() }, [0; 7], desk_at_1);
}

/// What the three stations hold by themselves, and the total.
fn at_once<const C: usize>([desk, first, second, total]: [[(u64, u8); C]; 4]) -> [Made<C>; 7] {
    [
        (WAKE, 0, 1, desk),
        (WAKE, 0, 2, desk),
        (PASS, 1, 2, first),
        (PASS, 2, 1, second),
        (ANSWER, 1, 0, first),
        (ANSWER, 2, 0, second),
        (REPORT, 0, 0, total),
    ]
}

/// The same, and what station 1 answers with that of station 2.
fn in_a_chain<const C: usize>(
    [desk, first, second, total]: [[(u64, u8); C]; 4],
    first_and_second: [(u64, u8); C],
) -> [Made<C>; 7] {
    [
        (WAKE, 0, 1, desk),
        (WAKE, 1, 2, first),
        (PASS, 0, 2, desk),
        (PASS, 2, 0, second),
        (ANSWER, 2, 1, second),
        (ANSWER, 1, 0, first_and_second),
        (REPORT, 0, 0, total),
    ]
}

fn check_order<const C: usize>(subject: &impl NetCalls<Meet>, map: &Map, draws: [u16; 7], steps: [Made<C>; 7]) {
    let mut net: Meet = fresh(subject, map);
    for (draw, (kind, sender, receiver, after)) in draws.into_iter().zip(steps) {
        assert_eq!(subject.draw(&mut net, draw), Ok(Step { kind, sender, receiver }));
        assert_eq!(net.stations()[usize::from(sender)].held, held(after));
    }
}

/// Totals carried back: after either order of the triangle two tells, in the order of the parents, and every station
/// knows what was reported; no tell before, and none to the desk; without carrying back kind 5 is out of range.
pub fn tells(subject: &(impl NetCalls<Back> + NetCalls<Meet>)) {
    let total = held([(23, 0)]);
    for (draws, second) in [([0; 9], [0, 2]), ([0, 1, 0, 0, 0, 0, 0, 0, 0], [1, 2])] {
        let (before, after) = draws.split_at(7);
        let mut net: Back = fresh(subject, &triangle());
        for &draw in before {
            let early = Step { kind: TELL, sender: 0, receiver: 1 };
            assert_eq!(subject.step(&mut net, early), Err(Cause::NotAllowed.alone()));
            subject.draw(&mut net, draw).expect("a step of the wave is allowed");
        }
        let to_the_desk = Step { kind: TELL, sender: 1, receiver: 0 };
        assert_eq!(subject.step(&mut net, to_the_desk), Err(Cause::NotAllowed.alone()));
        assert_eq!(net.0.kept, [Aggregate::default(); PLACES]);
        for (&draw, [sender, receiver]) in after.iter().zip([[0, 1], second]) {
            let own = net.0.stations[usize::from(receiver)];
            assert_eq!(subject.draw(&mut net, draw), Ok(Step { kind: TELL, sender, receiver }));
            assert_eq!(net.0.kept[usize::from(receiver)], total);
            assert_eq!(net.0.stations[usize::from(receiver)], Station { state: TOLD, ..own });
        }
        assert_eq!(subject.draw(&mut net, 0), Err(Cause::NothingAllowed.alone()));
        net.check_rest(&triangle());
    }
    let mut net: Meet = fresh(subject, &triangle());
    let tell = Step { kind: TELL, sender: 0, receiver: 1 };
    assert_eq!(subject.step(&mut net, tell), Err(Cause::OutOfRange.alone()));
}

/// Steps far apart: on a line of five, the desk in its middle, its neighbours wake the ends in either order. Not so where they
/// name a common station: whoever wakes station 2 of the triangle first is its parent, and the other is refused. Nor where
/// one leaves the form, as a tell to a station that still waits does.
pub fn apart(subject: &(impl NetCalls<Back> + NetCalls<Meet>)) {
    let wake = |sender, receiver| Step { kind: WAKE, sender, receiver };
    let line = map_of(1, &[([1], 6), ([2], 9), ([3], 17), ([4], 2), ([5], 4)]);
    let [mut one, mut other]: [Back; 2] = [fresh(subject, &line), fresh(subject, &line)];
    for step in [wake(0, 1), wake(0, 2), wake(1, 3), wake(2, 4)] {
        assert_eq!(subject.step(&mut one, step), Ok(step));
    }
    for step in [wake(0, 1), wake(0, 2), wake(2, 4), wake(1, 3)] {
        assert_eq!(subject.step(&mut other, step), Ok(step));
    }
    assert!(one == other, "the ends are woken in either order");
    for (first, second, parent) in [(wake(0, 2), wake(1, 2), 0), (wake(1, 2), wake(0, 2), 1)] {
        let mut net: Meet = fresh(subject, &triangle());
        assert_eq!(subject.step(&mut net, wake(0, 1)), Ok(wake(0, 1)));
        assert_eq!(subject.step(&mut net, first), Ok(first));
        assert_eq!(subject.step(&mut net, second), Err(Cause::NotAllowed.alone()));
        assert_eq!(net.stations[2].parent, parent);
    }
    let mut net: Back = fresh(subject, &line);
    assert!(subject.run(&mut net, &[0; 10]).refusal.is_none());
    net.0.stations[2].waits = 1;
    let [waiting, far] = [[0, 2], [1, 3]].map(|[sender, receiver]| Step { kind: TELL, sender, receiver });
    assert_eq!(subject.step(&mut net.clone(), far), Ok(far));
    assert_eq!(subject.step(&mut net, waiting), Ok(waiting));
    assert_eq!(subject.step(&mut net, far), Err(Cause::OutOfForm.alone()));
}

/// The triangle with the desk at station 1.
const DESK_AT_1_OUTPUT: &str = "\
wake 1 0
wake 0 2
pass 1 2
pass 2 1
answer 2 0 11 0
answer 0 1 16 0
report 1 23 0
lot 42 steps 7 links 3
";

/// The program, for the inputs that document 01 names, for heads without a reading, for several classes, for long lots, and
/// for other desks.
pub fn program(output: impl Fn(&[u8]) -> Vec<u8>) {
    let prints = |draws: &[u16], map: &Map, text: &str| {
        let input: Vec<u8> = draws.iter().flat_map(|draw| draw.to_le_bytes()).chain(stored(map)).collect();
        assert_eq!(String::from_utf8_lossy(&output(&input)), text);
    };
    prints(&[0; 7], &triangle(), TRIANGLE_OUTPUT);
    prints(&[0; 8], &triangle(), TRIANGLE_OUTPUT);
    prints(&[0; 6], &triangle(), &TRIANGLE_OUTPUT.replace("report 0 23 0\n", "").replace("steps 7", "steps 6"));
    prints(&[], &triangle(), "lot 42 steps 0 links 3\n");
    prints(&[0], &alone(), "report 0 9 0\nlot 1 steps 1 links 0\n");
    prints(&[], &Map { lot: 4_294_967_296, ..triangle() }, "lot 4294967296 steps 0 links 3\n");
    prints(&[], &Map { lot: 281_474_976_710_655, ..triangle() }, "lot 281474976710655 steps 0 links 3\n");
    prints(&[0; 3], &pair(), "wake 0 1\nanswer 1 0 4 0\nreport 0 7 0\nlot 2 steps 3 links 1\n");
    prints(&[0; 7], &Map { desk: 1, ..triangle() }, DESK_AT_1_OUTPUT);
    prints(&[0; 3], &Map { desk: 1, ..pair() }, "wake 1 0\nanswer 0 1 3 0\nreport 1 7 0\nlot 2 steps 3 links 1\n");
    prints(&[0; 7], &Map { desk: 3, ..triangle() }, "refused 19\n");
    prints(&[0; 7], &lamp_failed(), LAMP_FAILED_OUTPUT);
    prints(&[0; 7], &two_classes(), TWO_CLASSES_OUTPUT);
    prints(&[0], &map_of(1, &[([NO_READING], 0)]), "report 0 0 1\nlot 1 steps 1 links 0\n");
    let eight = map_of(1, &[([0, 1, NO_READING, 3, LARGEST_COUNT, 5, 6, NO_READING], 0)]);
    prints(&[0], &eight, "report 0 0 0 1 0 0 1 3 0 4294967294 0 5 0 6 0 0 1\nlot 1 steps 1 links 0\n");
    prints(&[], &map_of(0, &[([0], 1)]), "refused 8 station 0\n");
    prints(&[], &map_of(0, &[([0], 0), ([0], 0)]), "refused 10 station 1\n");
    prints(&[], &map_of(0, &[([0], 2), ([0], 0)]), "refused 9 station 0\n");
    prints(&[], &map_of(0, &[([0], 4), ([0], 0)]), "refused 7 station 0\n");
    assert_eq!(output(&[0; 15]), b"refused 1\n");
    assert_eq!(output(&[0; 28]), b"refused 2\n");
    assert_eq!(output(&one_row(44, 44)), b"refused 2\n");
    assert_eq!(output(&one_row(40, 12)), b"refused 4\n");
}

const TRIANGLE_SHEET: [&str; 5] = [
    "             42                         ",
    " 0 1          5                         ",
    " 1 1          7                         ",
    " 2 1         11                         ",
    "T  1           23  0                    ",
];

/// The triangle with two classes.
pub const TWO_CLASSES_SHEET: [&str; 9] = [
    "             42                         ",
    " 0 1          5                         ",
    " 0 2          4                         ",
    " 1 1          7                         ",
    " 1 2 ----------                         ",
    " 2 1         11                         ",
    " 2 2          3                         ",
    "T  1           23  0                    ",
    "T  2            7  1                    ",
];

/// The net of a map after its report.
fn after_report(map: &Map) -> Meet {
    let mut net = Meet::set_up(map, SUM);
    net.run(&vec![0; Record::whole(map)]);
    net
}

/// The grower sheet (document 02, request 7): its lines, its length, the refusals of its own, and the widest numbers.
pub fn sheets(subject: &impl SheetCalls) {
    let sheet = |map: &Map, net: &Meet, room: usize| {
        let mut bytes = vec![0xa5; room];
        let answer = subject.sheet(map, net, &mut bytes);
        (answer, String::from_utf8_lossy(&bytes).into_owned())
    };
    let refused = |map: &Map, net: &Meet, room: usize, refusal: Refusal| {
        let mut bytes = vec![0xa5; room];
        assert_eq!(subject.sheet(map, net, &mut bytes), Err(refusal), "{map:?} and {net:?}");
        assert_eq!(bytes, vec![0xa5; room], "a refusal leaves the buffer");
    };
    for (map, lines) in [(triangle(), &TRIANGLE_SHEET[..]), (two_classes(), &TWO_CLASSES_SHEET[..])] {
        let (net, text) = (after_report(&map), lines.join("\n") + "\n");
        let length = text.len();
        assert_eq!(sheet(&map, &net, length), (Ok(length as u32), text));
        refused(&map, &net, length - 1, Cause::BufferTooSmall.with(length as u32));
        refused(&map, &Meet::set_up(&map, SUM), length, Cause::Unreported.alone());
    }
    let (map, net) = (triangle(), after_report(&triangle()));
    refused(&two_classes(), &net, 0, Cause::OtherMap.alone());
    refused(&Map { desk: 2, ..map }, &net, 0, Cause::OtherMap.alone());
    refused(&Map { lot: 1 << 48, ..map }, &Meet::set_up(&two_classes(), SUM), 0, Cause::LotTooLong.alone());
    for way in [GREATEST, LEAST, NUMBER] {
        refused(&map, &Meet { config: Config { way, ..net.config }, ..net.clone() }, 0, Cause::OtherMap.alone());
    }
    let mut wide = net.clone();
    wide.stations[0].held.put(0, Cell { sum: 999_999_999_999, missing: 64 });
    let last = "T  1 999999999999 64                    \n";
    assert!(sheet(&map, &wide, 205).1.ends_with(last), "the widest total");
    wide.stations[0].held.put(0, Cell { sum: 1_000_000_000_000, missing: 0 });
    refused(&map, &wide, 0, Cause::Unreported.alone());
    let all = all_linked(&[NO_READING - 1; CLASSES]);
    let (answer, text) = sheet(&all, &after_report(&all), 21_361);
    assert_eq!((answer, text.len()), (Ok(21_361), 21_361));
    assert!(text.starts_with("281474976710655 "), "the greatest lot");
    assert!(text.contains("\n63 8 4294967294 "), "the greatest count");
    assert!(text.contains("\nT  8 274877906816  0 "), "the largest total");
}
