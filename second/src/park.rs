//! Parked texts: "Controllers are switched off at night with jobs half read.
//! The desk wants the state written as text and read back next day." A text
//! holds the measure and the state. "The page is not in it."

use crate::measure::{Measure, STACK_ROOM, WIDEST_ROW};
use crate::run::Refusal;
use crate::state::{Position, State};

/// "Decimals have 1 to 10 digits."
pub const MOST_DIGITS: u32 = 10;

const TAB: u8 = b'\t';
/// "LF ends each line."
const LF: u8 = b'\n';

/// What a text gives: W and H, and a state that is sound on that page and has
/// no sequence open.
#[derive(Clone, PartialEq, Eq, Debug)]
pub struct Parked {
    pub measure: Measure,
    pub state: State,
}

// ---- writing

/// Writes the state's text into the first bytes of `room` and gives their
/// number. Room beyond the text, and all of it if refused, stays untouched.
///
/// "Writing gives 10, 13, 16 sequence open, 15 text longer than its room; [..]
/// each in that order."
pub fn park(width: u64, height: u64, state: &State, room: &mut [u8]) -> Result<usize, Refusal> {
    let text = parked_text(width, height, state)?;
    let front = room.get_mut(..text.len()).ok_or(Refusal::TextTooLong)?;
    front.copy_from_slice(text.as_bytes());
    Ok(text.len())
}

/// The text where there is room for any: 10, 13 and 16 alone are left.
pub fn parked_text(width: u64, height: u64, state: &State) -> Result<String, Refusal> {
    let measure = Measure::allowed(width, height).ok_or(Refusal::MeasureNotAllowed)?;
    if !state.is_sound(&measure) {
        return Err(Refusal::StateNotSound);
    }
    // An open sequence whose bytes can't be is not sound: 13, and not 16.
    if state.open.is_some() {
        return Err(Refusal::SequenceOpen);
    }
    let mut text = job_line(&measure, state);
    text += &position_lines(state);
    text += &row_line(&measure, state);
    Ok(text)
}

/// "A line JOB with tab-parted decimal fields."
fn job_line(measure: &Measure, state: &State) -> String {
    let mut line = "JOB".to_string();
    for (_, number) in members(measure, state) {
        line += &format!("\t{number}");
    }
    line + "\n"
}

/// The fields of the line JOB: "W, H, x, y, L, R, T, HMI, VMI, line
/// termination, resolution, method, started, graphics margin, used, depth", each
/// under a short name.
fn members(measure: &Measure, state: &State) -> [(&'static str, u64); 16] {
    [
        ("W", u64::from(measure.width())),
        ("H", u64::from(measure.height())),
        ("x", u64::from(state.x)),
        ("y", u64::from(state.y)),
        ("L", u64::from(state.left_margin)),
        ("R", u64::from(state.right_margin)),
        ("T", u64::from(state.top_margin)),
        ("HMI", u64::from(state.hmi)),
        ("VMI", u64::from(state.vmi)),
        ("termination", u64::from(state.line_termination)),
        ("resolution", u64::from(state.resolution)),
        ("method", u64::from(state.method)),
        ("started", u64::from(state.started)),
        ("margin", u64::from(state.graphics_margin)),
        ("used", u64::from(state.used)),
        ("depth", state.depth),
    ]
}

/// "One line POS, x, y for each stacked position, deepest first."
fn position_lines(state: &State) -> String {
    // A sound depth is no more than the stack holds.
    let depth = usize::try_from(state.depth).unwrap_or(STACK_ROOM);
    let mut lines = String::new();
    for Position { x, y } in state.stack.iter().take(depth) {
        lines += &format!("POS\t{x}\t{y}\n");
    }
    lines
}

/// "A line ROW with the seed row's W/8 bytes as pairs of capital hexadecimal
/// digits, tab-parted from the word."
fn row_line(measure: &Measure, state: &State) -> String {
    let row = state.seed.get(..measure.row_bytes()).unwrap_or(&[]);
    format!("ROW\t{}\n", write_pairs(row))
}

/// Pairs of capital hexadecimal digits.
pub fn write_pairs(bytes: &[u8]) -> String {
    const DIGITS: &[u8; 16] = b"0123456789ABCDEF";
    let mut text = String::with_capacity(2 * bytes.len());
    for byte in bytes {
        for half in [byte >> 4, byte & 15] {
            text.push(char::from(DIGITS[usize::from(half)]));
        }
    }
    text
}

/// What a text holds, for a reader: a line for each member with its name, then
/// the lines of the positions and of the row as the text has them.
pub fn listing(parked: &Parked) -> String {
    let Parked { measure, state } = parked;
    let mut lines = String::new();
    for (name, number) in members(measure, state) {
        lines += &format!("{name}\t{number}\n");
    }
    lines + &position_lines(state) + &row_line(measure, state)
}

// ---- reading

/// Reads a text, no further than to its first byte that is not of the form.
///
/// "Reading gives 17 text not of this form, 18 form right but measure not
/// allowed or state not sound, both with no state; each in that order." So the
/// form is seen to its end before anything is said of measure and state.
pub fn unpark(text: impl IntoIterator<Item = u8>) -> Result<Parked, Refusal> {
    let form = Form::read(&mut text.into_iter()).ok_or(Refusal::TextNotOfTheForm)?;
    form.parked().ok_or(Refusal::TextNotSound)
}

/// What a text of the form says, allowed and sound or not. Its size is fixed:
/// what has no place here (a 21st position, a 601st byte of the row) comes with
/// a depth or a W that is refused anyhow.
struct Form {
    job: JobLine,
    stack: [PositionLine; STACK_ROOM],
    seed: [u8; WIDEST_ROW],
}

/// The line JOB. Ten digits are more than 32 bits hold.
struct JobLine {
    width: u64,
    height: u64,
    x: u64,
    y: u64,
    left_margin: u64,
    right_margin: u64,
    top_margin: u64,
    hmi: u64,
    vmi: u64,
    line_termination: u64,
    resolution: u64,
    method: u64,
    started: bool,
    graphics_margin: u64,
    used: bool,
    depth: u64,
}

#[derive(Clone, Copy, Default)]
struct PositionLine {
    x: u64,
    y: u64,
}

/// Every turn of a loop takes at least one byte of the text or ends the
/// reading: a great depth or W costs nothing where the text is short.
impl Form {
    /// None if the text is not of the form.
    fn read(text: &mut impl Iterator<Item = u8>) -> Option<Form> {
        let job = JobLine::read(text)?;
        let stack = read_positions(text, job.depth)?;
        let seed = read_row(text, job.width)?;
        match text.next() {
            None => Some(Form { job, stack, seed }),
            // Nothing stands behind the last line.
            Some(_) => None,
        }
    }

    /// None if the measure is not allowed or the state not sound. A number that
    /// its member can't hold is beyond every bound there is.
    fn parked(&self) -> Option<Parked> {
        let measure = Measure::allowed(self.job.width, self.job.height)?;
        let state = self.state()?;
        state
            .is_sound(&measure)
            .then_some(Parked { measure, state })
    }

    fn state(&self) -> Option<State> {
        let job = &self.job;
        Some(State {
            x: number_32(job.x)?,
            y: number_32(job.y)?,
            left_margin: number_32(job.left_margin)?,
            right_margin: number_32(job.right_margin)?,
            top_margin: number_32(job.top_margin)?,
            hmi: number_32(job.hmi)?,
            vmi: number_32(job.vmi)?,
            line_termination: u8::try_from(job.line_termination).ok()?,
            resolution: u16::try_from(job.resolution).ok()?,
            method: u8::try_from(job.method).ok()?,
            started: job.started,
            graphics_margin: number_32(job.graphics_margin)?,
            used: job.used,
            depth: job.depth,
            // "Sound [..] without an open sequence": no text has one.
            open: None,
            stack: self.positions()?,
            seed: self.seed,
        })
    }

    fn positions(&self) -> Option<[Position; STACK_ROOM]> {
        let mut stack = [Position::default(); STACK_ROOM];
        for (position, line) in stack.iter_mut().zip(&self.stack) {
            position.x = number_32(line.x)?;
            position.y = number_32(line.y)?;
        }
        Some(stack)
    }
}

impl JobLine {
    /// The fields are read in the order in which they are written here.
    fn read(text: &mut impl Iterator<Item = u8>) -> Option<JobLine> {
        expect(text, b"JOB\t")?;
        Some(JobLine {
            width: decimal(text, TAB)?,
            height: decimal(text, TAB)?,
            x: decimal(text, TAB)?,
            y: decimal(text, TAB)?,
            left_margin: decimal(text, TAB)?,
            right_margin: decimal(text, TAB)?,
            top_margin: decimal(text, TAB)?,
            hmi: decimal(text, TAB)?,
            vmi: decimal(text, TAB)?,
            line_termination: decimal(text, TAB)?,
            resolution: decimal(text, TAB)?,
            method: decimal(text, TAB)?,
            started: flag(text, TAB)?,
            graphics_margin: decimal(text, TAB)?,
            used: flag(text, TAB)?,
            depth: decimal(text, LF)?,
        })
    }
}

/// "Depth is the number of POS lines." Only so many are kept as there are places.
fn read_positions(
    text: &mut impl Iterator<Item = u8>,
    depth: u64,
) -> Option<[PositionLine; STACK_ROOM]> {
    let mut stack = [PositionLine::default(); STACK_ROOM];
    let mut places = stack.iter_mut();
    for _ in 0..depth {
        expect(text, b"POS\t")?;
        let x = decimal(text, TAB)?;
        let y = decimal(text, LF)?;
        if let Some(place) = places.next() {
            *place = PositionLine { x, y };
        }
    }
    Some(stack)
}

/// "W/8 is cut down": a W that is no multiple of 8 has a row all the same, and
/// one below 8 has a row of no bytes.
fn read_row(text: &mut impl Iterator<Item = u8>, width: u64) -> Option<[u8; WIDEST_ROW]> {
    expect(text, b"ROW\t")?;
    let mut seed = [0; WIDEST_ROW];
    let mut places = seed.iter_mut();
    for _ in 0..width / 8 {
        let byte = capital_digit(text.next()?)? << 4 | capital_digit(text.next()?)?;
        if let Some(place) = places.next() {
            *place = byte;
        }
    }
    expect(text, &[LF])?;
    Some(seed)
}

/// These bytes come next.
fn expect(text: &mut impl Iterator<Item = u8>, bytes: &[u8]) -> Option<()> {
    for byte in bytes {
        if text.next()? != *byte {
            return None;
        }
    }
    Some(())
}

/// A field and the byte that ends it: "Decimals have 1 to 10 digits and no
/// leading zeros."
fn decimal(text: &mut impl Iterator<Item = u8>, end: u8) -> Option<u64> {
    let mut number = decimal_digit(text.next()?)?;
    let leads_with_zero = number == 0;
    for digits in 1.. {
        let byte = text.next()?;
        if byte == end {
            break;
        }
        // A zero stands alone, and ten digits are the most.
        if leads_with_zero || digits == MOST_DIGITS {
            return None;
        }
        number = number * 10 + decimal_digit(byte)?;
    }
    Some(number)
}

/// "Flags are 0 or 1."
fn flag(text: &mut impl Iterator<Item = u8>, end: u8) -> Option<bool> {
    match decimal(text, end)? {
        0 => Some(false),
        1 => Some(true),
        _ => None,
    }
}

fn decimal_digit(byte: u8) -> Option<u64> {
    byte.is_ascii_digit().then(|| u64::from(byte - b'0'))
}

/// A capital hexadecimal digit: small ones are not of the form.
fn capital_digit(byte: u8) -> Option<u8> {
    match byte {
        b'0'..=b'9' => Some(byte - b'0'),
        b'A'..=b'F' => Some(byte - b'A' + 10),
        _ => None,
    }
}

fn number_32(number: u64) -> Option<u32> {
    u32::try_from(number).ok()
}
