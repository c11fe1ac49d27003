//! The grower sheet: the map handed over by value, the net lent for reading.

use super::lending::{lend_mut, LaidOut, Packed};
use super::map::{count, Map};
use super::meet::Kept;
use super::net::Line;
use super::Library;
use crate::calls::SheetCalls;
use crate::model::map as model;
use crate::model::meet::Meet;
use crate::model::refusal::Refusal;

extern "C" {
    pub fn tally_sheet(map: Map, net: *const Line, kept: *const Kept, bytes: *mut u8, length: usize) -> Packed;
}

impl SheetCalls for Library {
    fn sheet(&self, map: &model::Map, net: &Meet, buffer: &mut [u8]) -> Result<u32, Refusal> {
        let mut lent = net.clone();
        let (bytes, length) = (buffer.as_mut_ptr(), buffer.len());
        let packed =
            lend_mut(&mut lent, |net| unsafe { tally_sheet(map.lay_out(), &net.line, &net.kept, bytes, length) });
        assert_eq!(lent, *net, "a net lent for reading was written");
        count(packed)
    }
}
