//! The state of a reader between items.

use crate::measure::{Measure, STACK_ROOM, TOP_MARGIN_ABOVE, WIDEST_ROW};
use crate::reader::OpenSequence;

/// The largest HMI that a command can set: 32,767 / 120 inch.
pub const LARGEST_HMI: u32 = 1_966_020;
/// The largest VMI that a command can set: 336 / 48 inch.
pub const LARGEST_VMI: u32 = 50_400;

#[derive(Clone, Copy, PartialEq, Eq, Debug, Default)]
pub struct Position {
    pub x: u32,
    pub y: u32,
}

/// The members are as wide as a handed state may have them: it may be unsound
/// in any of them, and comes back as given then.
#[derive(Clone, PartialEq, Eq, Debug)]
pub struct State {
    pub x: u32,
    pub y: u32,
    /// L
    pub left_margin: u32,
    /// R
    pub right_margin: u32,
    /// T
    pub top_margin: u32,
    pub hmi: u32,
    pub vmi: u32,
    pub line_termination: u8,
    pub resolution: u16,
    pub method: u8,
    /// Raster graphics started.
    pub started: bool,
    pub graphics_margin: u32,
    /// Page used.
    pub used: bool,
    /// How many positions are stacked.
    pub depth: u64,
    pub open: Option<OpenSequence>,
    pub stack: [Position; STACK_ROOM],
    pub seed: [u8; WIDEST_ROW],
}

impl State {
    /// "Afresh": the state at the start, and after ESC E.
    pub fn afresh(measure: &Measure) -> State {
        let mut state = State {
            x: 0,
            y: 0,
            left_margin: 0,
            right_margin: measure.logical_width(),
            top_margin: if measure.height() > TOP_MARGIN_ABOVE {
                3_600
            } else {
                0
            },
            hmi: 720,
            vmi: 1_200,
            line_termination: 0,
            resolution: 75,
            method: 0,
            started: false,
            graphics_margin: 0,
            used: false,
            depth: 0,
            open: None,
            stack: [Position::default(); STACK_ROOM],
            seed: [0; WIDEST_ROW],
        };
        state.y = measure.bring_y(state.first_line());
        state
    }

    /// T + three quarters of VMI, cut down, not yet brought into the page.
    pub fn first_line(&self) -> i64 {
        i64::from(self.top_margin) + i64::from(self.vmi) * 3 / 4
    }

    /// "A state is sound if": the rules behind refusal 13.
    pub fn is_sound(&self, measure: &Measure) -> bool {
        self.cursor_is_sound(measure)
            && self.motion_is_sound()
            && self.stack_is_sound(measure)
            && self.raster_is_sound(measure)
            && self.sequence_is_sound()
    }

    fn cursor_is_sound(&self, measure: &Measure) -> bool {
        self.x <= measure.logical_width()
            && self.y <= measure.logical_height()
            && self.left_margin < self.right_margin
            && self.right_margin <= measure.logical_width()
            && self.top_margin <= measure.logical_height()
    }

    fn motion_is_sound(&self) -> bool {
        self.hmi <= LARGEST_HMI && self.vmi <= LARGEST_VMI && self.line_termination <= 3
    }

    /// Stacked positions are in the page, free places are 0, 0.
    fn stack_is_sound(&self, measure: &Measure) -> bool {
        if self.depth > STACK_ROOM as u64 {
            return false;
        }
        (0u64..).zip(&self.stack).all(|(place, position)| {
            if place < self.depth {
                position.x <= measure.logical_width() && position.y <= measure.logical_height()
            } else {
                *position == Position::default()
            }
        })
    }

    fn raster_is_sound(&self, measure: &Measure) -> bool {
        matches!(self.resolution, 75 | 100 | 150 | 300)
            && self.method <= 3
            && self.graphics_margin <= measure.logical_width()
            && self
                .seed
                .iter()
                .skip(measure.row_bytes())
                .all(|byte| *byte == 0)
    }

    fn sequence_is_sound(&self) -> bool {
        match self.open {
            None => true,
            Some(OpenSequence { first, group }) => {
                (33..=47).contains(&first) && (96..=126).contains(&group)
            }
        }
    }
}
