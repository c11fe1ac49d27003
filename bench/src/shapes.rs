//! The maps that are timed.

use conformance::model::aggregate::NO_READING;
use conformance::model::map::Map;

/// A name, and the map of that shape with so many stations and classes.
type Shape = (&'static str, fn(u8, u8) -> Map);

pub const SHAPES: [Shape; 3] = [("ring", ring), ("tree", tree), ("clique", clique)];

/// In each class one head in eight has no reading.
fn of_links(k: u8, classes: u8, links: impl Iterator<Item = (u8, u8)>) -> Map {
    let mut map = Map::empty(k, classes, 42);
    for (a, b) in links {
        map.neighbours[usize::from(a)] |= 1 << b;
        map.neighbours[usize::from(b)] |= 1 << a;
    }
    for (i, counts) in (0..u32::from(k)).zip(&mut map.counts) {
        for (j, count) in (0..u32::from(classes)).zip(counts) {
            *count = if (i + j) % 8 == 7 { NO_READING } else { 1_000_003 * (i + 1) + j };
        }
    }
    map
}

fn ring(k: u8, classes: u8) -> Map {
    of_links(k, classes, (0..k).map(|i| (i, (i + 1) % k)))
}

/// Two below each.
fn tree(k: u8, classes: u8) -> Map {
    of_links(k, classes, (1..k).map(|i| ((i - 1) / 2, i)))
}

pub fn clique(k: u8, classes: u8) -> Map {
    of_links(k, classes, (0..k).flat_map(|b| (0..b).map(move |a| (a, b))))
}

/// Draws enough for a whole wave and so many tells, the same each time.
pub fn draws(map: &Map, tells: usize) -> Vec<u16> {
    let mut state = 9640u32;
    let mut draw = || {
        state = state.wrapping_mul(1_664_525).wrapping_add(1_013_904_223);
        (state >> 16) as u16
    };
    (0..2 * map.links() as usize + 1 + tells).map(|_| draw()).collect()
}
