//! Rows: the four methods of raster data.

/// The payload ends where a byte of it is still wanted.
#[derive(Clone, Copy, PartialEq, Eq, Debug)]
pub struct Damaged;

/// Decodes one row of `row.len()` bytes (W/8) into `row`. `seed` is the seed
/// row, of which only method 3 makes use. A damaged row is a row of zeros. A
/// method that there is not counts as damage: no state has one.
pub fn decode_row(method: u8, payload: &[u8], seed: &[u8], row: &mut [u8]) -> Result<(), Damaged> {
    // "decoded bytes beyond are dropped, missing ones are zero"
    row.fill(0);
    let result = match method {
        0 => {
            unencoded(payload, row);
            Ok(())
        }
        1 => run_length(payload, row),
        2 => packed(payload, row),
        3 => {
            for (cell, byte) in row.iter_mut().zip(seed) {
                *cell = *byte;
            }
            delta(payload, row)
        }
        _ => Err(Damaged),
    };
    if result.is_err() {
        row.fill(0);
    }
    result
}

/// Method 0: bytes as they are.
fn unencoded(payload: &[u8], row: &mut [u8]) {
    for (cell, byte) in row.iter_mut().zip(payload) {
        *cell = *byte;
    }
}

/// Method 1: pairs; the second byte is repeated first + 1 times.
fn run_length(payload: &[u8], row: &mut [u8]) -> Result<(), Damaged> {
    let pairs = payload.chunks_exact(2);
    if !pairs.remainder().is_empty() {
        return Err(Damaged);
    }
    let mut place = 0;
    for pair in pairs {
        let (count, byte) = match pair {
            &[count, byte] => (count, byte),
            _ => return Err(Damaged),
        };
        place = repeat(row, place, byte, usize::from(count) + 1);
    }
    Ok(())
}

/// Method 2: literal and repeated runs.
fn packed(payload: &[u8], row: &mut [u8]) -> Result<(), Damaged> {
    let mut rest = payload;
    let mut place = 0;
    while let Some((&control, after)) = rest.split_first() {
        rest = match control {
            0..=127 => {
                let (literal, after) = take(after, usize::from(control) + 1)?;
                place = put(row, place, literal);
                after
            }
            // Nothing, not even a byte after it.
            128 => after,
            129..=255 => {
                let (&byte, after) = after.split_first().ok_or(Damaged)?;
                place = repeat(row, place, byte, 257 - usize::from(control));
                after
            }
        };
    }
    Ok(())
}

/// Method 3: changes to the seed row, which `row` holds already.
fn delta(payload: &[u8], row: &mut [u8]) -> Result<(), Damaged> {
    let mut rest = payload;
    // "from the byte after the last replaced one (from the row's start at
    // first)"; the place goes on counting beyond the row.
    let mut place: usize = 0;
    while let Some((&control, mut after)) = rest.split_first() {
        let count = usize::from(control >> 5) + 1;
        let offset = control & 31;
        place += usize::from(offset);
        if offset == 31 {
            // 31 adds the next byte, and on while that byte is 255.
            loop {
                let (&more, beyond) = after.split_first().ok_or(Damaged)?;
                place += usize::from(more);
                after = beyond;
                if more != 255 {
                    break;
                }
            }
        }
        let (replacement, beyond) = take(after, count)?;
        place = put(row, place, replacement);
        rest = beyond;
    }
    Ok(())
}

/// The first `count` bytes and the rest; missing bytes are damage, even where
/// they would fall beyond the row.
fn take(bytes: &[u8], count: usize) -> Result<(&[u8], &[u8]), Damaged> {
    if count > bytes.len() {
        return Err(Damaged);
    }
    Ok(bytes.split_at(count))
}

/// Puts bytes at a place of the row, dropping those beyond it; gives the place
/// after them.
fn put(row: &mut [u8], place: usize, bytes: &[u8]) -> usize {
    for (cell, byte) in row.iter_mut().skip(place).zip(bytes) {
        *cell = *byte;
    }
    place + bytes.len()
}

/// The same for one byte repeated.
fn repeat(row: &mut [u8], place: usize, byte: u8, count: usize) -> usize {
    for cell in row.iter_mut().skip(place).take(count) {
        *cell = byte;
    }
    place + count
}
