//! Lending: values cross in the library's layout, what a call must leave is seen to come back as it was, and what it
//! answers is taken apart.

use crate::model::refusal::Refusal;
use std::fmt::Debug;

/// What every exported call returns: document 01's number in the low byte, and above it what comes with that number.
#[repr(transparent)]
pub struct Packed(u64);

impl Packed {
    /// What comes with an acceptance, or the refusal: with a station (7 to 10), with the length needed (15), or alone.
    pub fn given(self) -> Result<u64, Refusal> {
        let (number, value) = (self.0 as u8, self.0 >> 8);
        let value = match number {
            0 => return Ok(value),
            7..=10 | 15 => Some(value.try_into().expect("a station or a length")),
            _ => {
                assert_eq!(value, 0, "number {number} comes alone");
                None
            }
        };
        Err(Refusal { number, value })
    }

    /// The outcome of a call that gives nothing when it is accepted.
    pub fn done(self) -> Result<(), Refusal> {
        self.given().map(|value| assert_eq!(value, 0, "this acceptance gives nothing"))
    }
}

/// A value of the model that the library holds in a layout of its own.
pub trait LaidOut: Clone + PartialEq + Debug {
    type Layout;

    fn lay_out(&self) -> Self::Layout;

    fn take_back(layout: &Self::Layout) -> Self;
}

/// Stands around what is lent: no call may touch it.
#[derive(Clone, PartialEq, Debug)]
#[repr(C)]
pub struct Fence([u64; 4]);

impl Fence {
    pub const INTACT: Fence = Fence([0xa5a5_a5a5_a5a5_a5a5; 4]);

    pub fn assert_untouched(&self) {
        assert_eq!(*self, Fence::INTACT, "the bytes around a lent value were written");
    }
}

#[repr(C)]
struct Fenced<T> {
    before: Fence,
    lent: T,
    after: Fence,
}

/// Lends a value and takes it back, altered or not.
pub fn lend_mut<V: LaidOut, R>(value: &mut V, call: impl FnOnce(&mut V::Layout) -> R) -> R {
    let mut fenced = Fenced { before: Fence::INTACT, lent: value.lay_out(), after: Fence::INTACT };
    let result = call(&mut fenced.lent);
    fenced.before.assert_untouched();
    fenced.after.assert_untouched();
    *value = V::take_back(&fenced.lent);
    result
}

/// Lends a slice for reading: it must come back as it was. It is lent for writing, or the compiler could take that for
/// granted.
#[cfg(feature = "map")]
pub fn lend_slice<T: Copy + PartialEq + Debug, R>(values: &[T], call: impl FnOnce(&mut [T]) -> R) -> R {
    let mut lent = values.to_vec();
    let result = call(&mut lent);
    assert_eq!(lent, values, "a slice lent for reading was written");
    result
}
