//! The program (document 01): draws and a map on standard input, a line for each step of stations that meet on standard
//! output.

use super::aggregate::{Aggregate, Cell, SUM};
use super::map::{self, Map};
use super::meet::{Meet, ANSWER, PASS, WAKE};
use super::net::{Net, Step};
use super::refusal::{Cause, Refusal};

pub const INPUT_LIMIT: usize = 65_536;

/// All the program prints for an input.
pub fn output(input: &[u8]) -> String {
    match parse(input) {
        Ok((draws, map)) => narrate(&draws, &map),
        Err(Refusal { number, value: Some(station) }) => format!("refused {number} station {station}\n"),
        Err(Refusal { number, value: None }) => format!("refused {number}\n"),
    }
}

/// Refusals 17, 1 to 10 with 19 after 3, 16.
fn parse(input: &[u8]) -> Result<(Vec<u16>, Map), Refusal> {
    if input.len() > INPUT_LIMIT {
        return Err(Cause::InputTooLong.alone());
    }
    let map = map::read(input)?;
    let before = &input[..input.len() - map.stored_length()];
    let pairs = before.chunks_exact(2);
    if !pairs.remainder().is_empty() {
        return Err(Cause::OddDraws.alone());
    }
    let draws = pairs.map(|pair| u16::from_le_bytes([pair[0], pair[1]])).collect();
    Ok((draws, map))
}

/// A line a step until the draws run out or nothing is allowed, then the closing line.
fn narrate(draws: &[u16], map: &Map) -> String {
    let mut net = Meet::set_up(map, SUM);
    let mut text = String::new();
    let mut steps = 0;
    for &draw in draws {
        let Ok(step) = net.draw(draw) else { break };
        text += &line(step, &shown(&net.stations[usize::from(step.sender)].held, map.classes));
        steps += 1;
    }
    text + &format!("lot {} steps {steps} links {}\n", map.lot, map.links())
}

/// "Lines show sum and missing number for each class in turn."
fn shown(gathered: &Aggregate, classes: u8) -> String {
    gathered.cells(classes).map(|Cell { sum, missing }| format!(" {sum} {missing}")).collect()
}

/// What the sender holds is what it answers or reports.
fn line(Step { kind, sender, receiver }: Step, held: &str) -> String {
    match kind {
        WAKE => format!("wake {sender} {receiver}\n"),
        PASS => format!("pass {sender} {receiver}\n"),
        ANSWER => format!("answer {sender} {receiver}{held}\n"),
        _ => format!("report {sender}{held}\n"),
    }
}
