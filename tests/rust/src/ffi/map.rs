//! The line map: read into a record that is lent, else handed over by value.

use super::lending::{lend_mut, lend_slice, LaidOut, Packed};
use super::Library;
use crate::calls::MapCalls;
use crate::model::map as model;
use crate::model::refusal::Refusal;
use crate::model::{CLASSES, PLACES};

#[derive(Clone, Copy)]
#[repr(C)]
pub struct Map {
    k: u8,
    classes: u8,
    desk: u8,
    lot: u64,
    counts: [[u32; CLASSES]; PLACES],
    neighbours: [u64; PLACES],
}

extern "C" {
    pub fn tally_map_read(map: *mut Map, bytes: *const u8, length: usize) -> Packed;
    pub fn tally_map_write(map: Map, bytes: *mut u8, length: usize) -> Packed;
    fn tally_map_accept(map: Map) -> Packed;
    fn tally_map_links(map: Map) -> Packed;
}

impl LaidOut for model::Map {
    type Layout = Map;

    fn lay_out(&self) -> Map {
        let model::Map { k, classes, desk, lot, counts, neighbours } = *self;
        Map { k, classes, desk, lot, counts, neighbours }
    }

    fn take_back(layout: &Map) -> model::Map {
        let Map { k, classes, desk, lot, counts, neighbours } = *layout;
        model::Map { k, classes, desk, lot, counts, neighbours }
    }
}

/// A number of links or of bytes.
pub fn count(packed: Packed) -> Result<u32, Refusal> {
    packed.given().map(|value| value.try_into().expect("a count"))
}

impl MapCalls for Library {
    fn read(&self, bytes: &[u8], map: &mut model::Map) -> Result<(), Refusal> {
        let packed = lend_slice(bytes, |bytes| {
            lend_mut(map, |map| unsafe { tally_map_read(map, bytes.as_mut_ptr(), bytes.len()) })
        });
        packed.done()
    }

    fn accept(&self, map: &model::Map) -> Result<(), Refusal> {
        unsafe { tally_map_accept(map.lay_out()) }.done()
    }

    fn write(&self, map: &model::Map, buffer: &mut [u8]) -> Result<u32, Refusal> {
        count(unsafe { tally_map_write(map.lay_out(), buffer.as_mut_ptr(), buffer.len()) })
    }

    fn links(&self, map: &model::Map) -> Result<u32, Refusal> {
        count(unsafe { tally_map_links(map.lay_out()) })
    }
}
