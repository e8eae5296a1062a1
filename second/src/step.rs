//! The steps by which the program `pages` draws a job: a step is one run, and
//! the lines that the program writes for it.

use crate::dots::{count_dots, Sheet};
use crate::report::{end_line, fault_line, mark_line, page_line};
use crate::run::{run, Ran, Refusal};
use crate::state::State;

/// A step's allowance, no less than the items of any job: at most 1,048,576
/// items have bytes, and an item of none is the first or stands behind one that
/// has some.
pub const ENOUGH_ITEMS: u64 = 2_097_153;

/// What a step is handed of the job, and gives on.
#[derive(Clone, PartialEq, Eq, Debug)]
pub struct Job {
    pub state: State,
    pub place: u64,
    /// The number of the page that is being drawn.
    pub number: u64,
    /// Findings so far.
    pub findings: u64,
}

/// What a step gives besides.
#[derive(Clone, PartialEq, Eq, Debug)]
pub struct Stepped {
    pub lines: String,
    /// The page is to be written.
    pub has_page: bool,
    /// There is no further step.
    pub over: bool,
}

impl Stepped {
    /// Where the run is refused: nothing is written, and the job is over.
    pub fn refused() -> Stepped {
        Stepped {
            lines: String::new(),
            has_page: false,
            over: true,
        }
    }
}

/// One step. Page and job are written only if the run is not refused. The page
/// is all that was lent: also of bytes behind the page's own the dots are
/// counted.
pub fn step(
    width: u64,
    height: u64,
    page: &mut [u8],
    stream: &[u8],
    job: &mut Job,
) -> Result<Stepped, Refusal> {
    let mut sheet = Sheet::new(page);
    let (state, place) = (&mut job.state, &mut job.place);
    let ran = run(
        width,
        height,
        &mut sheet,
        stream,
        state,
        place,
        ENOUGH_ITEMS,
    )?;
    if ran.done == 0 {
        return Ok(last_step(page, job));
    }
    Ok(step_on(page, job, &ran))
}

/// Nothing was left to do: the page that is being drawn is the last one.
fn last_step(page: &[u8], job: &Job) -> Stepped {
    let has_page = job.state.used;
    let mut lines = String::new();
    if has_page {
        lines += &page_line(job.number, count_dots(page));
    }
    lines += &end_line(&job.state, job.findings);
    Stepped {
        lines,
        has_page,
        over: true,
    }
}

fn step_on(page: &[u8], job: &mut Job, ran: &Ran) -> Stepped {
    let mut lines = String::new();
    if let Some(found) = &ran.found {
        lines += &fault_line(found);
        lines += &mark_line(found);
        job.findings += 1;
    }
    if ran.page_ended {
        lines += &page_line(job.number, count_dots(page));
        job.number += 1;
    }
    Stepped {
        lines,
        has_page: ran.page_ended,
        over: false,
    }
}

/// Writes the lines to the front of a room, as far as there is room. Gives how
/// many bytes were written.
pub fn write_front(room: &mut [u8], lines: &[u8]) -> usize {
    for (cell, byte) in room.iter_mut().zip(lines) {
        *cell = *byte;
    }
    room.len().min(lines.len())
}
