//! Case files: runs, steps, translations and parked texts on anything a caller
//! might hand in, one to a line, each answered by one line.

use crate::dots::{count_dots, Sheet};
use crate::measure::{Measure, LONGEST_STREAM, STACK_ROOM, WIDEST_ROW};
use crate::park::{park, unpark, write_pairs, Parked};
use crate::plain::translate;
use crate::reader::OpenSequence;
use crate::run::run;
use crate::state::{Position, State};
use crate::step::{step, write_front, Job, Stepped};
use std::io::{self, BufRead, Read, Write};

/// A lent buffer is shorter than this.
pub const BUFFER_END: u64 = 8_000_000;
/// Every byte of a step's room at the start: none that a line has.
pub const ROOM_FILL: u8 = b'.';
/// The greatest page number and the greatest count of findings of a step.
pub const HIGHEST_COUNT: u64 = 1 << 32;
/// A line is at most this long, its end not counted: memory stays bounded on
/// any input.
pub const LONGEST_LINE: usize = 33_554_432;

/// Why the cases stopped before the end of the file.
#[derive(Debug)]
pub enum CasesStopped {
    /// The line of this number, from 1, is not of the form.
    Line(u64),
    Input(io::Error),
    Output(io::Error),
}

/// Runs every case of `input`.
pub fn run_cases(input: &mut dyn BufRead, out: &mut dyn Write) -> Result<(), CasesStopped> {
    answer_lines(input, out, |number, line| {
        Some(format!("{number} {}", answer_case(line)?))
    })
}

/// Writes the answer to every line of `input`. `answer` is handed the line's
/// number, from 1, and the line; it gives None if the line is not of the form.
pub fn answer_lines(
    input: &mut dyn BufRead,
    out: &mut dyn Write,
    answer: impl Fn(u64, &str) -> Option<String>,
) -> Result<(), CasesStopped> {
    let mut line = Vec::new();
    for number in 1u64.. {
        line.clear();
        let mut limited = Read::take(&mut *input, LONGEST_LINE as u64 + 1);
        let length = limited
            .read_until(b'\n', &mut line)
            .map_err(CasesStopped::Input)?;
        if length == 0 {
            break;
        }
        if line.last() == Some(&b'\n') {
            line.pop();
        }
        if line.len() > LONGEST_LINE {
            return Err(CasesStopped::Line(number));
        }
        let text = std::str::from_utf8(&line).map_err(|_| CasesStopped::Line(number))?;
        let mut answer = answer(number, text).ok_or(CasesStopped::Line(number))?;
        answer.push('\n');
        out.write_all(answer.as_bytes())
            .map_err(CasesStopped::Output)?;
    }
    Ok(())
}

/// The answer to one case, without its number; None if it is not of the form.
pub fn answer_case(line: &str) -> Option<String> {
    let fields: Vec<&str> = line.split(' ').collect();
    match fields.as_slice() {
        ["R", width, height, length, fill, state, place, allowance, stream] => {
            let handed = Handed::parse(width, height, length, fill, state, place, stream)?;
            Some(answer_run(handed, decimal(allowance)?))
        }
        ["S", width, height, length, fill, state, place, number, findings, room, stream] => {
            let handed = Handed::parse(width, height, length, fill, state, place, stream)?;
            let room = bytes_of(room, ROOM_FILL)?;
            Some(answer_step(
                handed,
                count_of(number)?,
                count_of(findings)?,
                room,
            ))
        }
        ["T", width, height, room, fill, stream] => {
            let (width, height) = (decimal(width)?, decimal(height)?);
            let mut room = filled(room, fill)?;
            let stream = parse_stream(stream)?;
            Some(answer_translation(width, height, &mut room, &stream))
        }
        ["K", width, height, room, fill, state] => {
            let (width, height) = (decimal(width)?, decimal(height)?);
            let mut room = filled(room, fill)?;
            let state = parse_state(state, width, height)?;
            Some(answer_parking(width, height, &state, &mut room))
        }
        ["U", text] => Some(answer_text(parse_text(text)?)),
        _ => None,
    }
}

/// What a run or a step is handed.
struct Handed {
    width: u64,
    height: u64,
    buffer: Vec<u8>,
    state: State,
    place: u64,
    stream: Vec<u8>,
}

impl Handed {
    fn parse(
        width: &str,
        height: &str,
        length: &str,
        fill: &str,
        state: &str,
        place: &str,
        stream: &str,
    ) -> Option<Handed> {
        let (width, height) = (decimal(width)?, decimal(height)?);
        Some(Handed {
            width,
            height,
            buffer: filled(length, fill)?,
            state: parse_state(state, width, height)?,
            place: decimal(place)?,
            stream: parse_stream(stream)?,
        })
    }

    /// Dots on the page's W/8 x H bytes, counted anew from the buffer.
    fn dots(&self) -> u64 {
        let page_bytes =
            Measure::allowed(self.width, self.height).map_or(0, |measure| measure.page_bytes());
        count_dots(self.buffer.get(..page_bytes).unwrap_or(&[]))
    }
}

fn answer_run(mut handed: Handed, allowance: u64) -> String {
    let result = run(
        handed.width,
        handed.height,
        &mut Sheet::new(&mut handed.buffer),
        &handed.stream,
        &mut handed.state,
        &mut handed.place,
        allowance,
    );
    let state = write_state(&handed.state);
    let hash = fnv1a(&handed.buffer);
    let place = handed.place;
    match result {
        Err(refusal) => {
            let code = refusal.number();
            format!("refused {code} 0 {place} {state} {hash:016x}")
        }
        Ok(ran) => {
            let done = ran.done;
            let (finding, found_at) = ran
                .found
                .map_or((0, 0), |found| (found.finding.number(), found.place));
            let ended = u8::from(ran.page_ended);
            let dots = handed.dots();
            format!("ran {done} {place} {finding} {found_at} {ended} {state} {hash:016x} {dots}")
        }
    }
}

fn answer_step(mut handed: Handed, number: u64, findings: u64, mut room: Vec<u8>) -> String {
    let mut job = Job {
        state: handed.state,
        place: handed.place,
        number,
        findings,
    };
    let result = step(
        handed.width,
        handed.height,
        &mut handed.buffer,
        &handed.stream,
        &mut job,
    );
    let (word, stepped) = match result {
        Err(refusal) => (format!("refused {}", refusal.number()), Stepped::refused()),
        Ok(stepped) => ("stepped".to_string(), stepped),
    };
    let end = write_front(&mut room, stepped.lines.as_bytes());
    format!(
        "{word} {} {} {:016x} {} {} {} {} {end} {} {:016x}",
        job.place,
        write_state(&job.state),
        fnv1a(&handed.buffer),
        job.number,
        job.findings,
        u8::from(stepped.has_page),
        u8::from(stepped.over),
        write_bytes(room.get(..end).unwrap_or(&[])),
        fnv1a(&room)
    )
}

fn answer_translation(width: u64, height: u64, room: &mut [u8], stream: &[u8]) -> String {
    match translate(width, height, stream, room) {
        Err(refusal) => {
            let code = refusal.number();
            format!("refused {code} 0 {:016x}", fnv1a(room))
        }
        Ok(length) => format!("plain {length} {:016x}", fnv1a(room)),
    }
}

fn answer_parking(width: u64, height: u64, state: &State, room: &mut [u8]) -> String {
    match park(width, height, state, room) {
        Err(refusal) => {
            let code = refusal.number();
            format!("refused {code} 0 {:016x}", fnv1a(room))
        }
        Ok(length) => {
            let text = write_pairs(room.get(..length).unwrap_or(&[]));
            format!("parked {length} {:016x} {text}", fnv1a(room))
        }
    }
}

fn answer_text(text: Vec<u8>) -> String {
    match unpark(text) {
        Err(refusal) => format!("refused {}", refusal.number()),
        Ok(Parked { measure, state }) => {
            let (width, height) = (measure.width(), measure.height());
            format!("read {width} {height} {}", write_state(&state))
        }
    }
}

/// 64-bit FNV-1a.
pub fn fnv1a(bytes: &[u8]) -> u64 {
    bytes.iter().fold(0xcbf2_9ce4_8422_2325, |hash, byte| {
        (hash ^ u64::from(*byte)).wrapping_mul(0x0000_0100_0000_01b3)
    })
}

// ---- fields

/// A decimal number of one or more digits, below 2^64.
pub fn decimal(text: &str) -> Option<u64> {
    if text.is_empty() || !text.bytes().all(|byte| byte.is_ascii_digit()) {
        return None;
    }
    text.parse().ok()
}

/// The same below 2^32.
pub fn decimal_32(text: &str) -> Option<u32> {
    u32::try_from(decimal(text)?).ok()
}

/// The same below 256.
pub fn decimal_byte(text: &str) -> Option<u8> {
    u8::try_from(decimal(text)?).ok()
}

fn flag(text: &str) -> Option<bool> {
    match text {
        "0" => Some(false),
        "1" => Some(true),
        _ => None,
    }
}

/// Hexadecimal pairs, at least one.
pub fn hexadecimal(text: &str) -> Option<Vec<u8>> {
    if text.is_empty() || text.len() % 2 != 0 {
        return None;
    }
    let mut bytes = Vec::with_capacity(text.len() / 2);
    for pair in text.as_bytes().chunks_exact(2) {
        let (high, low) = match pair {
            &[high, low] => (high, low),
            _ => return None,
        };
        bytes.push(digit(high)? << 4 | digit(low)?);
    }
    Some(bytes)
}

/// Hexadecimal pairs, `-` for none.
pub fn hexadecimal_or_none(text: &str) -> Option<Vec<u8>> {
    if text == "-" {
        return Some(Vec::new());
    }
    hexadecimal(text)
}

/// The byte, if it is the only one.
pub fn one_byte(bytes: &[u8]) -> Option<u8> {
    match bytes {
        [byte] => Some(*byte),
        _ => None,
    }
}

fn digit(byte: u8) -> Option<u8> {
    match byte {
        b'0'..=b'9' => Some(byte - b'0'),
        b'A'..=b'F' => Some(byte - b'A' + 10),
        b'a'..=b'f' => Some(byte - b'a' + 10),
        _ => None,
    }
}

/// A lent buffer of this length, every byte of it `fill`.
fn filled(length: &str, fill: &str) -> Option<Vec<u8>> {
    bytes_of(length, one_byte(&hexadecimal(fill)?)?)
}

fn bytes_of(length: &str, fill: u8) -> Option<Vec<u8>> {
    let length = decimal(length)?;
    if length >= BUFFER_END {
        return None;
    }
    Some(vec![fill; usize::try_from(length).ok()?])
}

/// A page number or a count of findings.
fn count_of(text: &str) -> Option<u64> {
    decimal(text).filter(|count| *count <= HIGHEST_COUNT)
}

/// `-`, hexadecimal pairs, or `xN:HEX`.
fn parse_stream(text: &str) -> Option<Vec<u8>> {
    match text.strip_prefix('x') {
        None => hexadecimal_or_none(text),
        // Too long is too long, by one byte or by far: no call looks into such
        // a stream, so its bytes need not be there.
        Some(repeated) => parse_repeated(repeated, |length| {
            Some(length.min(LONGEST_STREAM as u64 + 1))
        }),
    }
}

/// The same for a parked text, which has no longest length: every byte of it is
/// there, so those of `xN:HEX` are fewer than a lent buffer may have.
fn parse_text(text: &str) -> Option<Vec<u8>> {
    match text.strip_prefix('x') {
        None => hexadecimal_or_none(text),
        Some(repeated) => {
            parse_repeated(repeated, |length| Some(length).filter(|n| *n < BUFFER_END))
        }
    }
}

/// `N:HEX`, for which `made` says how many bytes are made, or None.
fn parse_repeated(text: &str, made: impl Fn(u64) -> Option<u64>) -> Option<Vec<u8>> {
    let (length, bytes) = text.split_once(':')?;
    let length = usize::try_from(made(decimal(length)?)?).ok()?;
    let bytes = hexadecimal(bytes)?;
    Some(bytes.iter().copied().cycle().take(length).collect())
}

/// `-`, the state afresh, or all its members.
fn parse_state(text: &str, width: u64, height: u64) -> Option<State> {
    let measure = Measure::allowed(width, height).unwrap_or(Measure::of_the_report());
    if text == "-" {
        return Some(State::afresh(&measure));
    }
    let members: Vec<&str> = text.split(',').collect();
    let members: &[&str; 17] = members.as_slice().try_into().ok()?;
    let [x, y, left, right, top, hmi, vmi, termination, resolution, method, started, margin, used, depth, sequence, stack, seed] =
        members;
    Some(State {
        x: decimal_32(x)?,
        y: decimal_32(y)?,
        left_margin: decimal_32(left)?,
        right_margin: decimal_32(right)?,
        top_margin: decimal_32(top)?,
        hmi: decimal_32(hmi)?,
        vmi: decimal_32(vmi)?,
        line_termination: decimal_byte(termination)?,
        resolution: u16::try_from(decimal(resolution)?).ok()?,
        method: decimal_byte(method)?,
        started: flag(started)?,
        graphics_margin: decimal_32(margin)?,
        used: flag(used)?,
        depth: decimal(depth)?,
        open: parse_sequence(sequence)?,
        stack: parse_stack(stack)?,
        seed: parse_seed(seed)?,
    })
}

fn parse_sequence(text: &str) -> Option<Option<OpenSequence>> {
    if text == "-" {
        return Some(None);
    }
    let (first, group) = text.split_once(':')?;
    Some(Some(OpenSequence {
        first: decimal_byte(first)?,
        group: decimal_byte(group)?,
    }))
}

fn parse_stack(text: &str) -> Option<[Position; STACK_ROOM]> {
    let mut stack = [Position::default(); STACK_ROOM];
    if text == "-" {
        return Some(stack);
    }
    for (place, position) in text.split(';').enumerate() {
        let (x, y) = position.split_once(':')?;
        // A 21st position has no place.
        *stack.get_mut(place)? = Position {
            x: decimal_32(x)?,
            y: decimal_32(y)?,
        };
    }
    Some(stack)
}

fn parse_seed(text: &str) -> Option<[u8; WIDEST_ROW]> {
    let mut seed = [0; WIDEST_ROW];
    if text == "-" {
        return Some(seed);
    }
    let bytes = hexadecimal(text)?;
    seed.get_mut(..bytes.len())?.copy_from_slice(&bytes);
    Some(seed)
}

// ---- answers

/// One state has one text: positions and seed bytes that are zero to the end
/// are left out.
pub fn write_state(state: &State) -> String {
    let sequence = match state.open {
        None => "-".to_string(),
        Some(OpenSequence { first, group }) => format!("{first}:{group}"),
    };
    format!(
        "{},{},{},{},{},{},{},{},{},{},{},{},{},{},{},{},{}",
        state.x,
        state.y,
        state.left_margin,
        state.right_margin,
        state.top_margin,
        state.hmi,
        state.vmi,
        state.line_termination,
        state.resolution,
        state.method,
        u8::from(state.started),
        state.graphics_margin,
        u8::from(state.used),
        state.depth,
        sequence,
        write_stack(&state.stack),
        write_bytes(&state.seed)
    )
}

/// How many members are left when the zero ones at the end are not written.
fn kept<T: PartialEq + Default>(members: &[T]) -> usize {
    members
        .iter()
        .rposition(|member| *member != T::default())
        .map_or(0, |last| last + 1)
}

fn write_stack(stack: &[Position]) -> String {
    let positions: Vec<String> = stack
        .iter()
        .take(kept(stack))
        .map(|position| format!("{}:{}", position.x, position.y))
        .collect();
    if positions.is_empty() {
        "-".to_string()
    } else {
        positions.join(";")
    }
}

/// Capital hexadecimal pairs up to the last byte that is not zero, `-` if there
/// is none.
pub fn write_bytes(bytes: &[u8]) -> String {
    match bytes.get(..kept(bytes)) {
        None | Some([]) => "-".to_string(),
        Some(written) => write_pairs(written),
    }
}
