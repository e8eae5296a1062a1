//! A run: at most so many items, from a state and a place.

use crate::commands::{do_item, Effect, Finding};
use crate::dots::Sheet;
use crate::measure::{Measure, LONGEST_STREAM};
use crate::reader::{read_item, Item};
use crate::state::{Position, State};

/// The paper's "calls refused as a whole", 10 to 15, and those of parked texts.
#[derive(Clone, Copy, PartialEq, Eq, Debug)]
pub enum Refusal {
    MeasureNotAllowed,
    PageTooShort,
    StreamTooLong,
    StateNotSound,
    PlaceAfterEnd,
    TranslationTooLong,
    /// A parked text longer than its room: the same number as a translation.
    TextTooLong,
    SequenceOpen,
    TextNotOfTheForm,
    /// Of the form, but the measure is not allowed or the state not sound.
    TextNotSound,
}

impl Refusal {
    /// The number in the paper's table, or in the request that added it.
    pub fn number(self) -> u8 {
        match self {
            Refusal::MeasureNotAllowed => 10,
            Refusal::PageTooShort => 11,
            Refusal::StreamTooLong => 12,
            Refusal::StateNotSound => 13,
            Refusal::PlaceAfterEnd => 14,
            Refusal::TranslationTooLong | Refusal::TextTooLong => 15,
            Refusal::SequenceOpen => 16,
            Refusal::TextNotOfTheForm => 17,
            Refusal::TextNotSound => 18,
        }
    }
}

/// A finding, and where its item began: in the stream, and on the page.
#[derive(Clone, Copy, PartialEq, Eq, Debug)]
pub struct Found {
    pub finding: Finding,
    pub place: usize,
    /// The cursor before the item did anything.
    pub cursor: Position,
}

/// What a run gives besides state and place.
#[derive(Clone, Copy, PartialEq, Eq, Debug, Default)]
pub struct Ran {
    /// Items done.
    pub done: u64,
    pub found: Option<Found>,
    pub page_ended: bool,
}

/// Runs at most `allowance` items. State, place and page are written only if
/// the call is not refused.
pub fn run(
    width: u64,
    height: u64,
    sheet: &mut Sheet,
    stream: &[u8],
    state: &mut State,
    place: &mut u64,
    allowance: u64,
) -> Result<Ran, Refusal> {
    let (measure, mut at) = admit(width, height, sheet.length(), stream, state, *place)?;
    let mut ran = Ran::default();
    while ran.done < allowance {
        let item = match read_item(stream, at, state.open) {
            Some(found) => found,
            None => {
                break;
            }
        };
        if ran.done == 0 && !state.used {
            // "With the page unused and an item to do, a run zeroes the page
            // first."
            sheet.zero(&measure);
        }
        let cursor = Position {
            x: state.x,
            y: state.y,
        };
        let effect = do_and_paint(&measure, sheet, stream, state, &item);
        at = item.end();
        ran.done += 1;
        ran.page_ended = effect.page_ended;
        ran.found = effect.finding.map(|finding| Found {
            finding,
            place: item.place,
            cursor,
        });
        if ran.found.is_some() || ran.page_ended {
            break;
        }
    }
    *place = at as u64;
    Ok(ran)
}

/// The refusals 10 to 14, in the paper's order.
fn admit(
    width: u64,
    height: u64,
    page_length: usize,
    stream: &[u8],
    state: &State,
    place: u64,
) -> Result<(Measure, usize), Refusal> {
    let measure = Measure::allowed(width, height).ok_or(Refusal::MeasureNotAllowed)?;
    if page_length < measure.page_bytes() {
        return Err(Refusal::PageTooShort);
    }
    if stream.len() > LONGEST_STREAM {
        return Err(Refusal::StreamTooLong);
    }
    if !state.is_sound(&measure) {
        return Err(Refusal::StateNotSound);
    }
    // A start place equal to the end is allowed.
    match usize::try_from(place) {
        Ok(place) if place <= stream.len() => Ok((measure, place)),
        _ => Err(Refusal::PlaceAfterEnd),
    }
}

fn do_and_paint(
    measure: &Measure,
    sheet: &mut Sheet,
    stream: &[u8],
    state: &mut State,
    item: &Item,
) -> Effect {
    let effect = do_item(measure, state, stream, item);
    if let Some(squares) = effect.squares {
        // The row is the seed row now.
        let row = state.seed.get(..measure.row_bytes()).unwrap_or(&[]);
        sheet.paint(measure, row, squares.left, squares.top, squares.size);
    }
    effect
}

/// Whether there is an item to do at this place: an open sequence at the
/// stream's end is one, of no bytes.
pub fn has_item(stream: &[u8], state: &State, place: u64) -> bool {
    state.open.is_some() || place < stream.len() as u64
}
