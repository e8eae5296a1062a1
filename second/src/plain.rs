//! The plain stream: one command a sequence, rows by method 0.

use crate::commands::{do_item, is_ignored_code, Command, Finding};
use crate::measure::{Measure, LONGEST_STREAM};
use crate::number::{write_position, write_size, Value};
use crate::reader::{read_item, Item, Piece, Sequence, ESC};
use crate::run::Refusal;
use crate::state::State;

/// Translates `stream` into the first bytes of `room` and gives their number.
/// Room beyond the translation, and all of it if refused, stays untouched.
pub fn translate(
    width: u64,
    height: u64,
    stream: &[u8],
    room: &mut [u8],
) -> Result<usize, Refusal> {
    let measure = Measure::allowed(width, height).ok_or(Refusal::MeasureNotAllowed)?;
    if stream.len() > LONGEST_STREAM {
        return Err(Refusal::StreamTooLong);
    }
    let longest = room.len().min(LONGEST_STREAM);
    let plain = plain_stream(&measure, stream, longest).ok_or(Refusal::TranslationTooLong)?;
    for (cell, byte) in room.iter_mut().zip(&plain) {
        *cell = *byte;
    }
    Ok(plain.len())
}

/// The plain stream, or None if it is longer than `longest`. It never shrinks
/// as it is written, so the writing stops where it grows too long.
fn plain_stream(measure: &Measure, stream: &[u8], longest: usize) -> Option<Vec<u8>> {
    let mut plain = Vec::new();
    let mut state = State::afresh(measure);
    let mut place = 0;
    while let Some(item) = read_item(stream, place, state.open) {
        let effect = do_item(measure, &mut state, stream, &item);
        if is_kept(effect.finding) {
            let row = state.seed.get(..measure.row_bytes()).unwrap_or(&[]);
            write_item(&mut plain, stream, &item, row);
        }
        if plain.len() > longest {
            return None;
        }
        place = item.end();
    }
    Some(plain)
}

/// "Items with findings 1 to 6 [..] are dropped": a damaged row is not.
fn is_kept(finding: Option<Finding>) -> bool {
    matches!(finding, None | Some(Finding::DamagedRow))
}

fn write_item(plain: &mut Vec<u8>, stream: &[u8], item: &Item, row: &[u8]) {
    match &item.piece {
        Piece::Broken(_) => {}
        Piece::Byte(byte) => {
            if !is_ignored_code(*byte) {
                plain.push(*byte);
            }
        }
        Piece::TwoByte(byte) => plain.extend([ESC, *byte]),
        Piece::Command(sequence) => {
            let payload = stream.get(sequence.payload.clone()).unwrap_or(&[]);
            write_command(plain, sequence, payload, row);
        }
    }
}

fn write_command(plain: &mut Vec<u8>, sequence: &Sequence, payload: &[u8], row: &[u8]) {
    let command = match Command::named(sequence.first, sequence.group, sequence.ending) {
        Some(found) => found,
        None => {
            return;
        }
    };
    let value = &sequence.value;
    let (text, data) = match command {
        // Each row is written as it was decoded, so no method is needed.
        Command::RasterMethod => return,
        Command::TransferRow => {
            let data = up_to_last_nonzero(row);
            (data.len().to_string(), data)
        }
        Command::TransparentPrint => (payload.len().to_string(), payload),
        Command::ColumnPosition
        | Command::HorizontalDecipoints
        | Command::HorizontalDots
        | Command::VerticalDecipoints
        | Command::VerticalDots
        | Command::RowPosition => (write_position(value), &[][..]),
        // The fraction is used, a plus means nothing.
        Command::VerticalMotionIndex | Command::HorizontalMotionIndex => {
            (write_size(value.size), &[][..])
        }
        Command::EndRaster | Command::EndRasterAndReset => (String::new(), &[][..]),
        Command::LeftMargin
        | Command::RightMargin
        | Command::TopMargin
        | Command::LineSpacing
        | Command::LineTermination
        | Command::PushPopPosition
        | Command::RasterResolution
        | Command::StartRaster
        | Command::RasterYOffset => (write_whole(value), &[][..]),
    };
    plain.extend([ESC, sequence.first]);
    plain.extend(sequence.group);
    plain.extend(text.as_bytes());
    plain.push(sequence.ending);
    plain.extend(data);
}

/// "The whole part only where only that is used": a command with a negative
/// one is not kept, so it has no sign.
fn write_whole(value: &Value) -> String {
    value.whole().to_string()
}

fn up_to_last_nonzero(row: &[u8]) -> &[u8] {
    let end = row
        .iter()
        .rposition(|byte| *byte != 0)
        .map_or(0, |last| last + 1);
    row.get(..end).unwrap_or(row)
}
