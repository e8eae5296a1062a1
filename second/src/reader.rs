//! Reading items: one text byte, one control code, one command with its
//! payload, or one broken piece, at a place of the stream.

use crate::number::{read_value, Value};
use std::ops::Range;

pub const ESC: u8 = 27;

/// The two bytes that an open sequence keeps: after ESC, and the group.
#[derive(Clone, Copy, PartialEq, Eq, Debug)]
pub struct OpenSequence {
    pub first: u8,
    pub group: u8,
}

/// Why a piece is broken, in the paper's numbers 1 and 2.
#[derive(Clone, Copy, PartialEq, Eq, Debug)]
pub enum Broken {
    /// 1: the stream ends inside a sequence, or payload is short.
    StreamEnds,
    /// 2: a byte that can't stand there.
    CannotStand,
}

/// A command of a sequence, with all that was written in it.
#[derive(Clone, PartialEq, Eq, Debug)]
pub struct Sequence {
    pub first: u8,
    pub group: Option<u8>,
    pub value: Value,
    /// The byte that ended the command, read as its capital.
    pub ending: u8,
    /// Where in the stream the payload stands.
    pub payload: Range<usize>,
}

#[derive(Clone, PartialEq, Eq, Debug)]
pub enum Piece {
    /// A text byte or a control code.
    Byte(u8),
    /// ESC and a byte 48..126.
    TwoByte(u8),
    Command(Sequence),
    Broken(Broken),
}

/// Whether a byte outside of sequences is a control code: all below space, and
/// 127. Space and all others are text bytes.
pub fn is_code(byte: u8) -> bool {
    match byte {
        0..=31 | 127 => true,
        32..=126 | 128..=255 => false,
    }
}

/// One item: its piece, the bytes it takes, the sequence it leaves open.
#[derive(Clone, PartialEq, Eq, Debug)]
pub struct Item {
    pub place: usize,
    pub length: usize,
    pub piece: Piece,
    pub leaves_open: Option<OpenSequence>,
}

impl Item {
    fn closing(place: usize, end: usize, piece: Piece) -> Item {
        Item {
            place,
            length: end.saturating_sub(place),
            piece,
            leaves_open: None,
        }
    }

    /// The place of the next item.
    pub fn end(&self) -> usize {
        self.place.saturating_add(self.length)
    }
}

/// Reads the item at `place`. None if there is no item to do: the stream is
/// at its end and no sequence is open.
pub fn read_item(stream: &[u8], place: usize, open: Option<OpenSequence>) -> Option<Item> {
    if let Some(OpenSequence { first, group }) = open {
        // The item begins at the first byte after the previous command.
        return Some(read_command(stream, place, place, first, Some(group)));
    }
    let byte = *stream.get(place)?;
    if byte != ESC {
        return Some(Item::closing(place, place + 1, Piece::Byte(byte)));
    }
    Some(read_escape(stream, place))
}

/// An item that begins with ESC, at `place`.
fn read_escape(stream: &[u8], place: usize) -> Item {
    match stream.get(place + 1) {
        None => Item::closing(place, place + 1, Piece::Broken(Broken::StreamEnds)),
        Some(&byte @ 48..=126) => Item::closing(place, place + 2, Piece::TwoByte(byte)),
        Some(&first @ 33..=47) => match stream.get(place + 2) {
            Some(&group @ 96..=126) => read_command(stream, place, place + 3, first, Some(group)),
            _ => read_command(stream, place, place + 2, first, None),
        },
        // The byte is read afresh, so only the ESC is taken.
        Some(_) => Item::closing(place, place + 1, Piece::Broken(Broken::CannotStand)),
    }
}

/// The rest of a command, from `value_place` on: value, ending, payload.
fn read_command(
    stream: &[u8],
    place: usize,
    value_place: usize,
    first: u8,
    group: Option<u8>,
) -> Item {
    let rest = stream.get(value_place..).unwrap_or(&[]);
    let (value, value_length) = read_value(rest);
    let ending_place = value_place + value_length;
    let (ending, leaves_open) = match (stream.get(ending_place), group) {
        (None, _) => {
            return Item::closing(place, stream.len(), Piece::Broken(Broken::StreamEnds));
        }
        (Some(&capital @ 64..=94), _) => (capital, None),
        (Some(&small @ 96..=126), Some(group)) => (small - 32, Some(OpenSequence { first, group })),
        // "Without a group, 96..126 there breaks the sequence", as does any
        // other byte: the bytes before it are taken.
        (Some(_), _) => {
            return Item::closing(place, ending_place, Piece::Broken(Broken::CannotStand));
        }
    };
    let payload_place = ending_place + 1;
    let count = payload_count(first, group, ending, &value);
    let payload_left = stream.len().saturating_sub(payload_place);
    if count > payload_left {
        return Item::closing(place, stream.len(), Piece::Broken(Broken::StreamEnds));
    }
    let end = payload_place + count;
    Item {
        place,
        length: end.saturating_sub(place),
        piece: Piece::Command(Sequence {
            first,
            group,
            value,
            ending,
            payload: payload_place..end,
        }),
        leaves_open,
    }
}

/// "Every command ending in W, and &p#X and *b#V, takes the whole part of its
/// value as a count of payload bytes, none if negative."
pub fn payload_count(first: u8, group: Option<u8>, ending: u8, value: &Value) -> usize {
    match (first, group, ending) {
        (_, _, b'W') | (b'&', Some(b'p'), b'X') | (b'*', Some(b'b'), b'V') => {
            usize::try_from(value.whole()).unwrap_or(0)
        }
        _ => 0,
    }
}
