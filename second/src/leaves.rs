//! Cases for the parts alone: a value, an item, a row, the dots of a row, the
//! plain form of a value. One to a line, each answered by one line.

use crate::cases::{
    answer_lines, decimal_32, decimal_byte, fnv1a, hexadecimal, hexadecimal_or_none, one_byte,
    write_bytes, CasesStopped, BUFFER_END,
};
use crate::commands::Command;
use crate::dots::{count_dots, paint_row};
use crate::measure::WIDEST_ROW;
use crate::number::{read_value, write_position, Sign, Value};
use crate::reader::{is_code, read_item, Broken, Item, OpenSequence, Piece, Sequence};
use crate::rows::decode_row;
use std::io::{BufRead, Write};

/// Answers every case of `input`.
pub fn run_leaves(input: &mut dyn BufRead, out: &mut dyn Write) -> Result<(), CasesStopped> {
    answer_lines(input, out, |_, line| answer_leaf(line))
}

/// The answer to one case; None if it is not of the form.
pub fn answer_leaf(line: &str) -> Option<String> {
    let (kind, rest) = line.split_once(' ')?;
    match kind {
        "V" => {
            let [at, stream] = fields(rest)?;
            Some(answer_value(place(at)?, &hexadecimal_or_none(stream)?))
        }
        "I" => {
            let [first, group, at, stream] = fields(rest)?;
            let open = parse_open(first, group)?;
            let stream = hexadecimal_or_none(stream)?;
            Some(answer_item(open, place(at)?, &stream))
        }
        "D" => {
            let [method, wide, seed, payload] = fields(rest)?;
            let mut row = vec![0; row_length(wide)?];
            let seed = seed_row(seed)?;
            let payload = hexadecimal_or_none(payload)?;
            Some(answer_row(decimal_32(method)?, &payload, &seed, &mut row))
        }
        "P" => {
            let [wide, high, dots, from, line, row, fill] = fields(rest)?;
            let painting = Painting {
                wide: place(wide)?,
                high: place(high)?,
                dots: dots_to_a_bit(dots)?,
                from: place(from)?,
                line: place(line)?,
                row: hexadecimal_or_none(row)?,
            };
            painting.answer(one_byte(&hexadecimal(fill)?)?)
        }
        "N" => {
            let [sign, size] = fields(rest)?;
            let sign = sign_numbered(sign)?;
            let size = i64::from(decimal_32(size)?);
            Some(write_position(&Value { sign, size }))
        }
        _ => None,
    }
}

// ---- fields

/// Exactly N fields, parted by single spaces: a further space makes a field of
/// its own, empty, which no field may be.
fn fields<const N: usize>(text: &str) -> Option<[&str; N]> {
    let mut parts = text.split(' ');
    let mut fields = [""; N];
    for field in &mut fields {
        *field = parts.next()?;
    }
    match parts.next() {
        None => Some(fields),
        Some(_) => None,
    }
}

/// A place, or another number below 2^32 that is counted with.
fn place(text: &str) -> Option<usize> {
    usize::try_from(decimal_32(text)?).ok()
}

/// `0 0` is none open; any other two bytes are taken as they are.
fn parse_open(first: &str, group: &str) -> Option<Option<OpenSequence>> {
    match (decimal_byte(first)?, decimal_byte(group)?) {
        (0, 0) => Some(None),
        (first, group) => Some(Some(OpenSequence { first, group })),
    }
}

fn row_length(text: &str) -> Option<usize> {
    place(text).filter(|wide| *wide <= WIDEST_ROW)
}

/// A seed row has room for 600 bytes, on a narrow page too.
fn seed_row(text: &str) -> Option<Vec<u8>> {
    hexadecimal_or_none(text).filter(|seed| seed.len() <= WIDEST_ROW)
}

fn dots_to_a_bit(text: &str) -> Option<usize> {
    place(text).filter(|dots| *dots <= 4)
}

fn sign_numbered(text: &str) -> Option<Sign> {
    match decimal_32(text)? {
        0 => Some(Sign::None),
        1 => Some(Sign::Plus),
        2 => Some(Sign::Minus),
        _ => None,
    }
}

fn sign_number(sign: Sign) -> u8 {
    match sign {
        Sign::None => 0,
        Sign::Plus => 1,
        Sign::Minus => 2,
    }
}

// ---- V: a value

fn answer_value(at: usize, stream: &[u8]) -> String {
    let (Value { sign, size }, length) = read_value(stream.get(at..).unwrap_or(&[]));
    format!("{} {size} {}", sign_number(sign), at.saturating_add(length))
}

// ---- I: an item

fn answer_item(open: Option<OpenSequence>, at: usize, stream: &[u8]) -> String {
    let item = match read_item(stream, at, open) {
        Some(found) => found,
        None => {
            // The stream's end, and no sequence is open: there is no item.
            return format!("4 {at} 0 0 1");
        }
    };
    let next = item.end();
    let (first, group) = item
        .leaves_open
        .map_or((0, 0), |open| (open.first, open.group));
    let (kind, detail) = kind_and_detail(&item);
    format!("{kind} {next} {first} {group} {detail}")
}

fn kind_and_detail(item: &Item) -> (u8, String) {
    match &item.piece {
        Piece::Byte(byte) => (u8::from(is_code(*byte)), byte.to_string()),
        Piece::TwoByte(byte) => (2, byte.to_string()),
        Piece::Command(sequence) => (3, command_detail(sequence)),
        Piece::Broken(Broken::StreamEnds) => (4, "1".to_string()),
        Piece::Broken(Broken::CannotStand) => (4, "2".to_string()),
    }
}

/// The value as it was sent, not as it is used; the payload's places, both the
/// next item's if there is none.
fn command_detail(sequence: &Sequence) -> String {
    let Sequence { value, payload, .. } = sequence;
    let (from, to) = (payload.start, payload.end);
    match Command::named(sequence.first, sequence.group, sequence.ending) {
        None => format!("0 0 0 {from} {to}"),
        Some(command) => format!(
            "{} {} {} {from} {to}",
            command_number(command),
            sign_number(value.sign),
            value.size
        ),
    }
}

/// The number in the list of the format.
pub fn command_number(command: Command) -> u8 {
    match command {
        Command::ColumnPosition => 1,
        Command::HorizontalDecipoints => 2,
        Command::HorizontalDots => 3,
        Command::VerticalDecipoints => 4,
        Command::VerticalDots => 5,
        Command::RowPosition => 6,
        Command::LeftMargin => 7,
        Command::RightMargin => 8,
        Command::TopMargin => 9,
        Command::VerticalMotionIndex => 10,
        Command::LineSpacing => 11,
        Command::HorizontalMotionIndex => 12,
        Command::LineTermination => 13,
        Command::PushPopPosition => 14,
        Command::RasterResolution => 15,
        Command::StartRaster => 16,
        Command::EndRaster => 17,
        Command::EndRasterAndReset => 18,
        Command::RasterYOffset => 19,
        Command::RasterMethod => 20,
        Command::TransparentPrint => 21,
        Command::TransferRow => 22,
    }
}

// ---- D: a row

fn answer_row(method: u32, payload: &[u8], seed: &[u8], row: &mut [u8]) -> String {
    // A greater number acts as 3.
    let method = u8::try_from(method.min(3)).unwrap_or(3);
    let whole = decode_row(method, payload, seed, row).is_ok();
    format!("{} {}", u8::from(whole), write_bytes(row))
}

// ---- P: the dots of a row

struct Painting {
    wide: usize,
    high: usize,
    dots: usize,
    from: usize,
    line: usize,
    row: Vec<u8>,
}

impl Painting {
    /// None if the page is as long as no lent buffer may be.
    fn answer(&self, fill: u8) -> Option<String> {
        let length = self.wide.checked_mul(self.high)?;
        if length as u64 >= BUFFER_END {
            return None;
        }
        let mut page = vec![fill; length];
        paint_row(
            &mut page, self.wide, self.high, &self.row, self.from, self.line, self.dots,
        );
        Some(format!("{:016x} {}", fnv1a(&page), count_dots(&page)))
    }
}
