use super::Refusal;
use conformance::model::map::Map;

const TRAILER: usize = 16;

/// Of a set, after the counts of its row.
const SET: usize = 8;

pub fn read(bytes: &[u8], map: &mut Map) -> Result<(), Refusal> {
    let Some(start) = bytes.len().checked_sub(TRAILER) else { return Err((1, 0)) };
    let trailer = &bytes[start..];
    let row = usize::from(u16::from_le_bytes([trailer[2], trailer[3]]));
    if !(12..=40).contains(&row) || row % 4 != 0 {
        return Err((2, 0));
    }
    let (k, desk) = (usize::from(trailer[0]), trailer[1]);
    if !(1..=64).contains(&k) {
        return Err((3, 0));
    }
    if usize::from(desk) >= k {
        return Err((19, 0));
    }
    if usize::from(u16::from_le_bytes([trailer[4], trailer[5]])) != row * k {
        return Err((4, 0));
    }
    let Some(first) = start.checked_sub(row * k) else { return Err((5, 0)) };
    if bytes[first..].chunks_exact(4).fold(0, |sum: u32, four| sum.wrapping_add(word(four))) != 0 {
        return Err((6, 0));
    }
    let mut sets = [0; 64];
    let rows = bytes[first..start].chunks_exact(row);
    for (set, row) in sets.iter_mut().zip(rows.clone()) {
        let at = row.len() - SET;
        *set = u64::from(word(&row[at..])) | u64::from(word(&row[at + 4..])) << 32;
    }
    accept(desk, &sets[..k])?;
    let classes = (row - SET) / 4;
    let counts = [[0; 8]; 64];
    let lot = u64::from(word(&trailer[8..])) | u64::from(u16::from_le_bytes([trailer[6], trailer[7]])) << 32;
    *map = Map { k: k as u8, classes: classes as u8, desk, lot, counts, neighbours: sets };
    for (counts, row) in map.counts.iter_mut().zip(rows) {
        for (count, four) in counts.iter_mut().zip(row[..row.len() - SET].chunks_exact(4)) {
            *count = word(four);
        }
    }
    Ok(())
}

/// What `write` refuses but a short buffer.
pub fn accept_for_writing(map: &Map) -> Result<(), Refusal> {
    if !(1..=8).contains(&map.classes) {
        return Err((2, 0));
    }
    if !(1..=64).contains(&map.k) {
        return Err((3, 0));
    }
    if map.desk >= map.k {
        return Err((19, 0));
    }
    accept(map.desk, &map.neighbours[..map.k.into()])?;
    if map.lot >= 1 << 48 {
        return Err((18, 0));
    }
    Ok(())
}

pub fn write(map: &Map, buffer: &mut [u8]) -> Result<(), Refusal> {
    accept_for_writing(map)?;
    let (k, classes) = (usize::from(map.k), usize::from(map.classes));
    let row_length = 4 * classes + SET;
    let needed = row_length * k + TRAILER;
    let Some(filled) = buffer.get_mut(..needed) else { return Err((15, needed as u32)) };
    let (rows, trailer) = filled.split_at_mut(row_length * k);
    let mut sum = 0u32;
    for ((row, counts), set) in rows.chunks_exact_mut(row_length).zip(&map.counts).zip(map.neighbours) {
        let (stored, tail) = row.split_at_mut(4 * classes);
        for (four, count) in stored.chunks_exact_mut(4).zip(counts) {
            four.copy_from_slice(&count.to_le_bytes());
            sum = sum.wrapping_add(*count);
        }
        tail.copy_from_slice(&set.to_le_bytes());
        sum = sum.wrapping_add(set as u32).wrapping_add((set >> 32) as u32);
    }
    let upper = (map.lot >> 32) as u32;
    let stations = u32::from(map.k) | u32::from(map.desk) << 8;
    let numbers = [stations | (row_length as u32) << 16, (row_length * k) as u32 | upper << 16, map.lot as u32];
    for (four, number) in trailer.chunks_exact_mut(4).zip(numbers) {
        four.copy_from_slice(&number.to_le_bytes());
        sum = sum.wrapping_add(number);
    }
    trailer[12..].copy_from_slice(&sum.wrapping_neg().to_le_bytes());
    Ok(())
}

fn word(bytes: &[u8]) -> u32 {
    u32::from_le_bytes([bytes[0], bytes[1], bytes[2], bytes[3]])
}

fn accept(desk: u8, sets: &[u64]) -> Result<(), Refusal> {
    let k = sets.len();
    let stations = u64::MAX >> (64 - k);
    lowest(sets, 7, |_, set| set & !stations != 0)?;
    lowest(sets, 8, |i, set| set >> i & 1 != 0)?;
    let namers = transposed(sets);
    lowest(sets, 9, |i, set| set & !namers[i] != 0)?;
    let apart = stations & !reached(desk, sets);
    lowest(sets, 10, |i, _| apart >> i & 1 != 0)
}

fn lowest(sets: &[u64], number: u8, offends: impl Fn(usize, u64) -> bool) -> Result<(), Refusal> {
    match sets.iter().enumerate().find(|&(i, &set)| offends(i, set)) {
        Some((i, _)) => Err((number, i as u32)),
        None => Ok(()),
    }
}

/// Who names each station: the sets as a matrix of bits, transposed block by block.
fn transposed(sets: &[u64]) -> [u64; 64] {
    let mut rows = [0; 64];
    rows[..sets.len()].copy_from_slice(sets);
    let (mut width, mut mask) = (32, u64::MAX >> 32);
    while width != 0 {
        let mut i = 0;
        while i < 64 {
            let swapped = (rows[i] >> width ^ rows[i + width]) & mask;
            rows[i] ^= swapped << width;
            rows[i + width] ^= swapped;
            i = (i + width + 1) & !width;
        }
        width >>= 1;
        mask ^= mask << width;
    }
    rows
}

fn reached(desk: u8, sets: &[u64]) -> u64 {
    let (mut reached, mut ahead) = (1 << desk, 1u64 << desk);
    while ahead != 0 {
        let new = sets[ahead.trailing_zeros() as usize] & !reached;
        ahead = (ahead & (ahead - 1)) | new;
        reached |= new;
    }
    reached
}
