//! Calls on a net: allowed, nearly allowed, and hostile.

use crate::calls::Call;
use crate::model::net::{Net, Step};
use crate::rng::Rng;

/// A step, a draw, or a run of at most `longest` draws.
pub fn any<N: Net>(rng: &mut Rng, net: &N, longest: usize) -> Call {
    match rng.below(10) {
        0..=4 => Call::Step(step(rng, net)),
        5..=7 => Call::Draw(draw(rng)),
        _ => {
            let count = rng.index(longest + 1);
            Call::Run(draws(rng, count))
        }
    }
}

pub fn draws(rng: &mut Rng, count: usize) -> Vec<u16> {
    (0..count).map(|_| draw(rng)).collect()
}

fn draw(rng: &mut Rng) -> u16 {
    if rng.chance(20) {
        rng.pick(&[0, 1, u16::MAX - 1, u16::MAX])
    } else {
        rng.bits() as u16
    }
}

fn step<N: Net>(rng: &mut Rng, net: &N) -> Step {
    let allowed = if net.is_well_formed() { net.listing() } else { Vec::new() };
    match rng.below(10) {
        0..=4 if !allowed.is_empty() => rng.pick(&allowed),
        5 | 6 if !allowed.is_empty() => {
            let (near, other) = (rng.pick(&allowed), number(rng, net.k()));
            rng.pick(&[Step { kind: other, ..near }, Step { sender: other, ..near }, Step { receiver: other, ..near }])
        }
        7 => Step { kind: number(rng, net.k()), sender: number(rng, net.k()), receiver: number(rng, net.k()) },
        8 => report(rng, net),
        _ => in_range(rng, net),
    }
}

/// A report at the desk, at station 0, or half at either.
fn report<N: Net>(rng: &mut Rng, net: &N) -> Step {
    let desk = net.config().desk;
    let [sender, receiver] = rng.pick(&[[desk; 2], [desk; 2], [0; 2], [0, desk], [desk, 0]]);
    Step { kind: N::REPORT, sender, receiver }
}

fn in_range<N: Net>(rng: &mut Rng, net: &N) -> Step {
    let k = net.k().max(1);
    Step { kind: 1 + rng.station(N::LAST), sender: rng.station(k), receiver: rng.station(k) }
}

/// A kind or a station number, in range or not.
fn number(rng: &mut Rng, k: u8) -> u8 {
    if rng.chance(50) {
        rng.station(6)
    } else {
        rng.pick(&[k.wrapping_sub(1), k, k.wrapping_add(1), 5, 63, 64, 65, 128, 255])
    }
}
