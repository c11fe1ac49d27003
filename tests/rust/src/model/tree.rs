//! The tree behind a total (document 02, request 6): what the parent records say after the report, from them alone.

use super::aggregate::Aggregate;
use super::map::Map;
use super::net::{Config, Net};
use super::set;

pub struct Tree<'a> {
    map: &'a Map,
    parents: Vec<u8>,
}

impl<'a> Tree<'a> {
    /// "Our electricians read the parent records to find which head hung on which."
    pub fn of<N: Net>(map: &'a Map, net: &N) -> Tree<'a> {
        let stations = &net.stations()[..map.k.into()];
        Tree::from_parents(map, stations.iter().map(|station| station.parent).collect())
    }

    /// A parent for each of the k stations; the desk's is not looked at.
    pub fn from_parents(map: &'a Map, parents: Vec<u8>) -> Tree<'a> {
        Tree { map, parents }
    }

    pub fn parent(&self, station: u8) -> u8 {
        self.parents[usize::from(station)]
    }

    /// "Each station but the desk has a neighbour as parent."
    pub fn has_neighbours_as_parents(&self) -> bool {
        let mut others = (0..self.map.k).filter(|&station| station != self.map.desk);
        others.all(|station| set::contains(self.map.neighbours[usize::from(station)], self.parent(station)))
    }

    /// The stations met in following parents from one to the desk, both among them; none where the desk is not reached
    /// "in at most k − 1 hops".
    pub fn way(&self, station: u8) -> Option<Vec<u8>> {
        let mut way = vec![station];
        let mut at = station;
        while at != self.map.desk {
            if way.len() == usize::from(self.map.k) {
                return None;
            }
            at = self.parent(at);
            way.push(at);
        }
        Some(way)
    }

    /// "The total of its own count and those of all stations whose parents lead through it", class by class, joined
    /// the way.
    pub fn total(&self, station: u8, way: u8) -> Aggregate {
        let config = Config::of(self.map, way);
        let mut total = Aggregate::of_none(config);
        for (i, counts) in (0..self.map.k).map(|i| (i, self.map.counts_of(i.into()))) {
            if self.way(i).is_some_and(|way| way.contains(&station)) {
                total.join(&Aggregate::of_counts(counts, way), config);
            }
        }
        total
    }
}
