//! Commands and codes: what each item does to the state.

use crate::measure::{Measure, DECIPOINT, DOT, DOTS_PER_INCH, HMI_STEP, INCH, VMI_STEP};
use crate::number::{Value, ONE};
use crate::reader::{Broken, Item, Piece, Sequence};
use crate::rows::decode_row;
use crate::state::{Position, State};

/// The paper's findings 1 to 7.
#[derive(Clone, Copy, PartialEq, Eq, Debug)]
pub enum Finding {
    StreamEnds,
    CannotStand,
    NotCarried,
    ValueNotAllowed,
    PushFullPopEmpty,
    NotNow,
    DamagedRow,
}

impl Finding {
    /// The number in the paper's table.
    pub fn number(self) -> u8 {
        match self {
            Finding::StreamEnds => 1,
            Finding::CannotStand => 2,
            Finding::NotCarried => 3,
            Finding::ValueNotAllowed => 4,
            Finding::PushFullPopEmpty => 5,
            Finding::NotNow => 6,
            Finding::DamagedRow => 7,
        }
    }
}

/// The commands of sequences that are carried.
#[derive(Clone, Copy, PartialEq, Eq, Debug)]
pub enum Command {
    /// `&a#C`
    ColumnPosition,
    /// `&a#H`
    HorizontalDecipoints,
    /// `*p#X`
    HorizontalDots,
    /// `&a#V`
    VerticalDecipoints,
    /// `*p#Y`
    VerticalDots,
    /// `&a#R`
    RowPosition,
    /// `&a#L`
    LeftMargin,
    /// `&a#M`
    RightMargin,
    /// `&l#E`
    TopMargin,
    /// `&l#C`
    VerticalMotionIndex,
    /// `&l#D`
    LineSpacing,
    /// `&k#H`
    HorizontalMotionIndex,
    /// `&k#G`
    LineTermination,
    /// `&f#S`
    PushPopPosition,
    /// `&p#X`
    TransparentPrint,
    /// `*t#R`
    RasterResolution,
    /// `*r#A`
    StartRaster,
    /// `*rB`
    EndRaster,
    /// `*rC`
    EndRasterAndReset,
    /// `*b#M`
    RasterMethod,
    /// `*b#Y`
    RasterYOffset,
    /// `*b#W`
    TransferRow,
}

impl Command {
    /// The command that these bytes name, if it is carried.
    pub fn named(first: u8, group: Option<u8>, ending: u8) -> Option<Command> {
        let command = match (first, group?, ending) {
            (b'&', b'a', b'C') => Command::ColumnPosition,
            (b'&', b'a', b'H') => Command::HorizontalDecipoints,
            (b'*', b'p', b'X') => Command::HorizontalDots,
            (b'&', b'a', b'V') => Command::VerticalDecipoints,
            (b'*', b'p', b'Y') => Command::VerticalDots,
            (b'&', b'a', b'R') => Command::RowPosition,
            (b'&', b'a', b'L') => Command::LeftMargin,
            (b'&', b'a', b'M') => Command::RightMargin,
            (b'&', b'l', b'E') => Command::TopMargin,
            (b'&', b'l', b'C') => Command::VerticalMotionIndex,
            (b'&', b'l', b'D') => Command::LineSpacing,
            (b'&', b'k', b'H') => Command::HorizontalMotionIndex,
            (b'&', b'k', b'G') => Command::LineTermination,
            (b'&', b'f', b'S') => Command::PushPopPosition,
            (b'&', b'p', b'X') => Command::TransparentPrint,
            (b'*', b't', b'R') => Command::RasterResolution,
            (b'*', b'r', b'A') => Command::StartRaster,
            (b'*', b'r', b'B') => Command::EndRaster,
            (b'*', b'r', b'C') => Command::EndRasterAndReset,
            (b'*', b'b', b'M') => Command::RasterMethod,
            (b'*', b'b', b'Y') => Command::RasterYOffset,
            (b'*', b'b', b'W') => Command::TransferRow,
            _ => return None,
        };
        Some(command)
    }
}

/// Where a row is to be painted: the row itself is the seed row then.
#[derive(Clone, Copy, PartialEq, Eq, Debug)]
pub struct Squares {
    pub left: usize,
    pub top: usize,
    pub size: usize,
}

/// What an item did beyond the state.
#[derive(Clone, Copy, PartialEq, Eq, Debug, Default)]
pub struct Effect {
    pub finding: Option<Finding>,
    pub page_ended: bool,
    pub squares: Option<Squares>,
}

impl Effect {
    fn finding(finding: Finding) -> Effect {
        Effect {
            finding: Some(finding),
            ..Effect::default()
        }
    }

    fn page_end(page_ended: bool) -> Effect {
        Effect {
            page_ended,
            ..Effect::default()
        }
    }
}

/// Does one item of the stream to the state. Painting is left to the caller,
/// so that the translator needs no page.
pub fn do_item(measure: &Measure, state: &mut State, stream: &[u8], item: &Item) -> Effect {
    // A finding 1 or 2 and a capital close the sequence; a small letter leaves
    // it open whatever is found in the command.
    state.open = item.leaves_open;
    match &item.piece {
        Piece::Broken(Broken::StreamEnds) => Effect::finding(Finding::StreamEnds),
        Piece::Broken(Broken::CannotStand) => Effect::finding(Finding::CannotStand),
        Piece::Byte(byte) => do_byte(measure, state, *byte),
        Piece::TwoByte(byte) => do_two_byte(measure, state, *byte),
        Piece::Command(sequence) => {
            let payload = stream.get(sequence.payload.clone()).unwrap_or(&[]);
            do_command(measure, state, sequence, payload).unwrap_or_else(Effect::finding)
        }
    }
}

// ---- text and control codes

const BS: u8 = 8;
const HT: u8 = 9;
const LF: u8 = 10;
const FF: u8 = 12;
const CR: u8 = 13;
const SPACE: u8 = 32;

/// "Other codes do nothing and give no finding."
pub fn is_ignored_code(byte: u8) -> bool {
    match byte {
        BS | HT | LF | FF | CR => false,
        0..=31 | 127 => true,
        SPACE | 33..=126 | 128..=255 => false,
    }
}

fn do_byte(measure: &Measure, state: &mut State, byte: u8) -> Effect {
    match byte {
        BS => backspace(state),
        HT => horizontal_tab(measure, state),
        LF => line_feed(measure, state),
        FF => return form_feed(measure, state),
        CR => carriage_return(measure, state),
        SPACE => move_as_text(measure, state),
        33..=126 | 128..=255 => {
            move_as_text(measure, state);
            state.used = true;
        }
        0..=31 | 127 => {}
    }
    Effect::default()
}

/// From right of L to no less than L, from left of L to no less than 0.
fn backspace(state: &mut State) {
    let back = state.x.saturating_sub(state.hmi);
    if state.x > state.left_margin {
        state.x = back.max(state.left_margin);
    } else if state.x < state.left_margin {
        state.x = back;
    }
}

/// "HT, space and text stop at R if x <= R, else at LW."
fn stop_of_motion(measure: &Measure, state: &State) -> i64 {
    if state.x <= state.right_margin {
        i64::from(state.right_margin)
    } else {
        i64::from(measure.logical_width())
    }
}

/// The first of L + 8k x HMI beyond x.
fn horizontal_tab(measure: &Measure, state: &mut State) {
    if state.hmi == 0 {
        return;
    }
    let (x, left) = (i64::from(state.x), i64::from(state.left_margin));
    let apart = 8 * i64::from(state.hmi);
    let tab = if x < left {
        left
    } else {
        left + ((x - left) / apart + 1) * apart
    };
    state.x = measure.bring_x(tab.min(stop_of_motion(measure, state)));
}

fn move_as_text(measure: &Measure, state: &mut State) {
    let moved = i64::from(state.x) + i64::from(state.hmi);
    state.x = measure.bring_x(moved.min(stop_of_motion(measure, state)));
}

fn move_down(measure: &Measure, state: &mut State, distance: i64) {
    state.y = measure.bring_y(i64::from(state.y) + distance);
}

/// CR; with line termination 1 and 3 CR and LF.
fn carriage_return(measure: &Measure, state: &mut State) {
    state.x = state.left_margin;
    if matches!(state.line_termination, 1 | 3) {
        move_down(measure, state, i64::from(state.vmi));
    }
}

/// LF; with line termination 2 and 3 CR and LF.
fn line_feed(measure: &Measure, state: &mut State) {
    if matches!(state.line_termination, 2 | 3) {
        state.x = state.left_margin;
    }
    move_down(measure, state, i64::from(state.vmi));
}

/// FF; with line termination 2 and 3 CR and FF. An unused page ends too.
fn form_feed(measure: &Measure, state: &mut State) -> Effect {
    if matches!(state.line_termination, 2 | 3) {
        state.x = state.left_margin;
    }
    state.y = measure.bring_y(state.first_line());
    state.used = false;
    Effect::page_end(true)
}

// ---- two-byte commands

fn do_two_byte(measure: &Measure, state: &mut State, byte: u8) -> Effect {
    match byte {
        b'9' => {
            state.left_margin = 0;
            state.right_margin = measure.logical_width();
            Effect::default()
        }
        b'=' => {
            move_down(measure, state, i64::from(state.vmi / 2));
            Effect::default()
        }
        b'E' => {
            // Ends the page if used, then everything afresh.
            let page_ended = state.used;
            *state = State::afresh(measure);
            Effect::page_end(page_ended)
        }
        _ => Effect::finding(Finding::NotCarried),
    }
}

// ---- commands of sequences

/// "Elsewhere [than in positions] a negative value is finding 4": the whole
/// part, where only that is used.
fn whole_not_negative(value: &Value) -> Result<i64, Finding> {
    let whole = value.whole();
    if whole < 0 {
        Err(Finding::ValueNotAllowed)
    } else {
        Ok(whole)
    }
}

/// The same where the fraction is used: -0.0001 is negative, -0 is not.
fn not_negative(value: &Value) -> Result<&Value, Finding> {
    if value.signed() < 0 {
        Err(Finding::ValueNotAllowed)
    } else {
        Ok(value)
    }
}

fn allow(allowed: bool, finding: Finding) -> Result<(), Finding> {
    if allowed {
        Ok(())
    } else {
        Err(finding)
    }
}

/// A length that is in the range of its rule, so the fallback never shows.
fn length(units: i64) -> u32 {
    u32::try_from(units).unwrap_or(u32::MAX)
}

fn do_command(
    measure: &Measure,
    state: &mut State,
    sequence: &Sequence,
    payload: &[u8],
) -> Result<Effect, Finding> {
    let command = match Command::named(sequence.first, sequence.group, sequence.ending) {
        Some(found) => found,
        None => {
            return Err(Finding::NotCarried);
        }
    };
    let value = &sequence.value;
    match command {
        Command::ColumnPosition => move_x(measure, state, value, i64::from(state.hmi)),
        Command::HorizontalDecipoints => move_x(measure, state, value, DECIPOINT),
        Command::HorizontalDots => move_x(measure, state, value, DOT),
        Command::VerticalDecipoints => {
            move_y(
                measure,
                state,
                value,
                DECIPOINT,
                i64::from(state.top_margin),
            );
        }
        Command::VerticalDots => {
            move_y(measure, state, value, DOT, i64::from(state.top_margin));
        }
        Command::RowPosition => {
            move_y(
                measure,
                state,
                value,
                i64::from(state.vmi),
                state.first_line(),
            );
        }
        Command::LeftMargin => left_margin(state, value)?,
        Command::RightMargin => right_margin(measure, state, value)?,
        Command::TopMargin => top_margin(measure, state, value)?,
        Command::VerticalMotionIndex => vertical_motion_index(state, value)?,
        Command::LineSpacing => line_spacing(state, value)?,
        Command::HorizontalMotionIndex => {
            state.hmi = length(not_negative(value)?.displacement(HMI_STEP));
        }
        Command::LineTermination => line_termination(state, value)?,
        Command::PushPopPosition => push_pop(state, value)?,
        Command::TransparentPrint => {
            whole_not_negative(value)?;
            transparent_print(measure, state, payload);
        }
        Command::RasterResolution => raster_resolution(state, value)?,
        Command::StartRaster => start_raster(state, value)?,
        Command::EndRaster => state.started = false,
        Command::EndRasterAndReset => {
            state.started = false;
            state.method = 0;
            state.graphics_margin = 0;
            state.seed.fill(0);
        }
        Command::RasterMethod => raster_method(state, value)?,
        Command::RasterYOffset => raster_y_offset(measure, state, value)?,
        Command::TransferRow => {
            whole_not_negative(value)?;
            return Ok(transfer_row(measure, state, payload));
        }
    }
    Ok(Effect::default())
}

/// x from 0 or, relative, from x.
fn move_x(measure: &Measure, state: &mut State, value: &Value, unit: i64) {
    let from = if value.is_relative() {
        i64::from(state.x)
    } else {
        0
    };
    state.x = measure.bring_x(from + value.displacement(unit));
}

/// y from the origin of the command or, relative, from y.
fn move_y(measure: &Measure, state: &mut State, value: &Value, unit: i64, origin: i64) {
    let from = if value.is_relative() {
        i64::from(state.y)
    } else {
        origin
    };
    state.y = measure.bring_y(from + value.displacement(unit));
}

/// L = n x HMI; 4 if not below R; x left of L moves to L.
fn left_margin(state: &mut State, value: &Value) -> Result<(), Finding> {
    let left = whole_not_negative(value)? * i64::from(state.hmi);
    allow(
        left < i64::from(state.right_margin),
        Finding::ValueNotAllowed,
    )?;
    state.left_margin = length(left);
    state.x = state.x.max(state.left_margin);
    Ok(())
}

/// R = the lesser of (n + 1) x HMI and LW; 4 if not above L; x right of R moves
/// to R.
fn right_margin(measure: &Measure, state: &mut State, value: &Value) -> Result<(), Finding> {
    let end = (whole_not_negative(value)? + 1) * i64::from(state.hmi);
    let right = end.min(i64::from(measure.logical_width()));
    allow(
        right > i64::from(state.left_margin),
        Finding::ValueNotAllowed,
    )?;
    state.right_margin = length(right);
    state.x = state.x.min(state.right_margin);
    Ok(())
}

/// T = n x VMI; 4 if VMI is 0 or T > LH; y stays.
fn top_margin(measure: &Measure, state: &mut State, value: &Value) -> Result<(), Finding> {
    let top = whole_not_negative(value)? * i64::from(state.vmi);
    let allowed = state.vmi != 0 && top <= i64::from(measure.logical_height());
    allow(allowed, Finding::ValueNotAllowed)?;
    state.top_margin = length(top);
    Ok(())
}

/// VMI, unit 1/48 inch, 4 above 336: the value is compared, not the cut VMI.
fn vertical_motion_index(state: &mut State, value: &Value) -> Result<(), Finding> {
    let value = not_negative(value)?;
    allow(value.signed() <= 336 * ONE, Finding::ValueNotAllowed)?;
    state.vmi = length(value.displacement(VMI_STEP));
    Ok(())
}

/// VMI = 7,200 / n for the line counts that divide an inch.
fn line_spacing(state: &mut State, value: &Value) -> Result<(), Finding> {
    let lines = value.whole();
    match lines {
        1 | 2 | 3 | 4 | 6 | 8 | 12 | 16 | 24 | 48 => {
            state.vmi = length(INCH / lines);
            Ok(())
        }
        _ => Err(Finding::ValueNotAllowed),
    }
}

fn line_termination(state: &mut State, value: &Value) -> Result<(), Finding> {
    state.line_termination = match value.whole() {
        0 => 0,
        1 => 1,
        2 => 2,
        3 => 3,
        _ => return Err(Finding::ValueNotAllowed),
    };
    Ok(())
}

/// `&f0S` pushes, `&f1S` pops; a place that is free again is 0, 0.
fn push_pop(state: &mut State, value: &Value) -> Result<(), Finding> {
    let depth = usize::try_from(state.depth).unwrap_or(usize::MAX);
    match value.whole() {
        0 => {
            let free = state
                .stack
                .get_mut(depth)
                .ok_or(Finding::PushFullPopEmpty)?;
            *free = Position {
                x: state.x,
                y: state.y,
            };
            state.depth += 1;
        }
        1 => {
            let top = depth
                .checked_sub(1)
                .and_then(|place| state.stack.get_mut(place))
                .ok_or(Finding::PushFullPopEmpty)?;
            let Position { x, y } = std::mem::take(top);
            state.x = x;
            state.y = y;
            state.depth -= 1;
        }
        _ => return Err(Finding::ValueNotAllowed),
    }
    Ok(())
}

/// Each payload byte moves as text; all but 32 mark the page used.
fn transparent_print(measure: &Measure, state: &mut State, payload: &[u8]) {
    for byte in payload {
        move_as_text(measure, state);
        if *byte != SPACE {
            state.used = true;
        }
    }
}

// ---- raster graphics

/// 75, 100, 150 or 300, else 4; 6 if started.
fn raster_resolution(state: &mut State, value: &Value) -> Result<(), Finding> {
    let resolution = match value.whole() {
        75 => 75,
        100 => 100,
        150 => 150,
        300 => 300,
        _ => return Err(Finding::ValueNotAllowed),
    };
    allow(!state.started, Finding::NotNow)?;
    state.resolution = resolution;
    Ok(())
}

/// 0 sets the graphics margin to 0, 1 to x, else 4; 6 if started.
fn start_raster(state: &mut State, value: &Value) -> Result<(), Finding> {
    let margin = match value.whole() {
        0 => 0,
        1 => state.x,
        _ => return Err(Finding::ValueNotAllowed),
    };
    allow(!state.started, Finding::NotNow)?;
    begin_raster(state, margin);
    Ok(())
}

fn begin_raster(state: &mut State, margin: u32) {
    state.graphics_margin = margin;
    state.started = true;
    state.seed.fill(0);
}

fn raster_method(state: &mut State, value: &Value) -> Result<(), Finding> {
    state.method = match value.whole() {
        0 => 0,
        1 => 1,
        2 => 2,
        3 => 3,
        _ => return Err(Finding::ValueNotAllowed),
    };
    Ok(())
}

/// The height of a raster row, 7,200 / resolution.
fn row_height(state: &State) -> i64 {
    INCH / i64::from(state.resolution).max(1)
}

/// y + n rows; 6 if not started (4 is checked first).
fn raster_y_offset(measure: &Measure, state: &mut State, value: &Value) -> Result<(), Finding> {
    let rows = whole_not_negative(value)?;
    allow(state.started, Finding::NotNow)?;
    move_down(measure, state, rows * row_height(state));
    Ok(())
}

/// A row, damaged or not: it ends as the seed row, from where the caller
/// paints it.
fn transfer_row(measure: &Measure, state: &mut State, payload: &[u8]) -> Effect {
    if !state.started {
        // "A row when not started first acts as *r0A."
        begin_raster(state, 0);
    }
    let seed = state.seed;
    let decoded = match state.seed.get_mut(..measure.row_bytes()) {
        Some(row) => decode_row(state.method, payload, &seed, row),
        None => Ok(()),
    };
    let squares = Squares {
        left: (state.graphics_margin / 24) as usize,
        top: (state.y / 24) as usize,
        size: DOTS_PER_INCH / usize::from(state.resolution).max(1),
    };
    state.x = state.graphics_margin;
    move_down(measure, state, row_height(state));
    state.used = true;
    Effect {
        finding: decoded.err().map(|_| Finding::DamagedRow),
        page_ended: false,
        squares: Some(squares),
    }
}
