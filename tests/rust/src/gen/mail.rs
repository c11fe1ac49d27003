//! Words of mail: any bits in both sets, and any sums and missing numbers, on both sides of their bounds, beside an
//! answer or not, and past c.

use super::aggregate;
use crate::model::aggregate::Aggregate;
use crate::model::mail::{Message, Outbox};
use crate::model::net::Config;
use crate::model::{set, PLACES};
use crate::rng::Rng;

/// One bit of a set in 2^sparsity is set: all of them at 0, none at 64.
pub type Sparsity = u32;

pub const SPARSITIES: [Sparsity; 6] = [0, 1, 2, 4, 6, 64];

fn bits(rng: &mut Rng, sparsity: Sparsity) -> u64 {
    (0..sparsity).fold(u64::MAX, |set, _| set & rng.bits())
}

/// Any words: both bits may be set, and anything may stand beside any of them.
pub fn any(rng: &mut Rng, sparsity: Sparsity) -> Outbox {
    let mut outbox = Outbox { starts: bits(rng, sparsity), answers: bits(rng, sparsity), ..Outbox::EMPTY };
    for receiver in 0..PLACES as u8 {
        outbox.put(receiver, &aggregate::any(rng));
    }
    outbox
}

/// The answer in a box.
fn answer(outbox: &Outbox, receiver: u8) -> Option<Aggregate> {
    match outbox.mailbox(receiver) {
        Some(Message::Answer(gathered)) => Some(gathered),
        _ => None,
    }
}

/// Makes the answers fit that wait for other stations below k; the stray words stay.
pub fn bring_into_form(rng: &mut Rng, outbox: &mut Outbox, sender: u8, config: Config) {
    for receiver in (0..config.k).filter(|&receiver| receiver != sender) {
        if answer(outbox, receiver).is_some_and(|gathered| !gathered.is_bounded(config)) {
            outbox.put(receiver, &aggregate::in_form(rng, config));
        }
    }
}

/// Posts an answer that is out of form in one class.
pub fn spoil(rng: &mut Rng, outbox: &mut Outbox, receiver: u8, config: Config) {
    let mut gathered = aggregate::in_form(rng, config);
    let class = aggregate::class(rng, config.classes);
    aggregate::spoil(rng, &mut gathered, class, config.way);
    outbox.post(receiver, Message::Answer(gathered));
}

/// Anything in the places of boxes that do not exist, in the words beside no answer, and past c.
pub fn litter(rng: &mut Rng, outbox: &mut Outbox, sender: u8, Config { k, classes, .. }: Config) {
    let sparsity = rng.pick(&SPARSITIES);
    let (starts, answers) = (bits(rng, sparsity), bits(rng, sparsity));
    for receiver in 0..PLACES as u8 {
        let exists = sender < k && receiver < k && sender != receiver;
        let bit = if exists { 0 } else { set::singleton(receiver) };
        outbox.starts = outbox.starts & !bit | starts & bit;
        outbox.answers = outbox.answers & !bit | answers & bit;
        let words = match answer(outbox, receiver) {
            Some(mut gathered) if exists => {
                aggregate::litter(rng, &mut gathered, classes);
                gathered
            }
            _ => aggregate::any(rng),
        };
        outbox.put(receiver, &words);
    }
}
