//! The report program, and the four writers like it: pages, trace, marks and
//! the parked text of a job half read.

use crate::dots::Sheet;
use crate::measure::Measure;
use crate::park::parked_text;
use crate::run::{has_item, run, Found, Ran, Refusal};
use crate::state::{Position, State};
use std::io::{self, Write};

/// The report program's own limit on its input.
pub const LONGEST_REPORT_INPUT: usize = 65_536;

/// Why a writer stopped.
#[derive(Debug)]
pub enum Stopped {
    Refused(Refusal),
    Output(io::Error),
}

impl From<io::Error> for Stopped {
    fn from(error: io::Error) -> Stopped {
        Stopped::Output(error)
    }
}

impl From<Refusal> for Stopped {
    fn from(refusal: Refusal) -> Stopped {
        Stopped::Refused(refusal)
    }
}

// ---- lines

pub(crate) fn fault_line(found: &Found) -> String {
    format!("FAULT\t{}\t{}\n", found.place, found.finding.number())
}

pub(crate) fn mark_line(found: &Found) -> String {
    format!("MARK\t{}\n", mark_fields(found))
}

/// A finding's place, its number, and the cursor as its item began.
fn mark_fields(found: &Found) -> String {
    let number = found.finding.number();
    let Position { x, y } = found.cursor;
    format!("{}\t{number}\t{x}\t{y}", found.place)
}

pub(crate) fn page_line(number: u64, dots: u64) -> String {
    format!("PAGE\t{number}\t{dots}\n")
}

pub(crate) fn end_line(state: &State, findings: u64) -> String {
    format!(
        "END\t{}\t{}\t{}\t{findings}\n",
        state.x, state.y, state.depth
    )
}

// ---- streams

/// A stream read from its start by runs, on a page buffer of its own.
struct Reading<'a> {
    measure: Measure,
    stream: &'a [u8],
    sheet: Sheet<'a>,
    state: State,
    place: u64,
    pages: u64,
}

impl<'a> Reading<'a> {
    fn start(measure: Measure, stream: &'a [u8], page: &'a mut [u8]) -> Reading<'a> {
        Reading {
            measure,
            stream,
            sheet: Sheet::new(page),
            state: State::afresh(&measure),
            place: 0,
            pages: 0,
        }
    }

    fn has_item(&self) -> bool {
        has_item(self.stream, &self.state, self.place)
    }

    fn run(&mut self, allowance: u64) -> Result<Ran, Refusal> {
        let ran = run(
            u64::from(self.measure.width()),
            u64::from(self.measure.height()),
            &mut self.sheet,
            self.stream,
            &mut self.state,
            &mut self.place,
            allowance,
        )?;
        if ran.page_ended {
            self.pages += 1;
        }
        Ok(ran)
    }

    fn write_page_line(&self, out: &mut dyn Write, number: u64) -> io::Result<()> {
        let dots = self.sheet.dots(&self.measure);
        out.write_all(page_line(number, dots).as_bytes())
    }

    /// "A used last page too": it was not handed over, so it is one more.
    fn write_last_page_line(&self, out: &mut dyn Write) -> io::Result<()> {
        if self.state.used {
            self.write_page_line(out, self.pages + 1)?;
        }
        Ok(())
    }
}

fn page_buffer(measure: &Measure) -> Vec<u8> {
    vec![0; measure.page_bytes()]
}

/// The report program, to the byte. `input` holds at most one byte more than
/// the limit, which is enough to know that it is longer.
pub fn write_report(input: &[u8], out: &mut dyn Write) -> Result<(), Stopped> {
    let measure = Measure::of_the_report();
    writeln!(out, "SIZE\t{}\t{}", measure.width(), measure.height())?;
    if input.len() > LONGEST_REPORT_INPUT {
        writeln!(out, "REFUSED\t{}", Refusal::StreamTooLong.number())?;
        return Ok(());
    }
    let mut page = page_buffer(&measure);
    let mut reading = Reading::start(measure, input, &mut page);
    let mut findings: u64 = 0;
    while reading.has_item() {
        let ran = reading.run(u64::MAX)?;
        if let Some(found) = ran.found {
            findings += 1;
            out.write_all(fault_line(&found).as_bytes())?;
        }
        if ran.page_ended {
            reading.write_page_line(out, reading.pages)?;
        }
    }
    reading.write_last_page_line(out)?;
    out.write_all(end_line(&reading.state, findings).as_bytes())?;
    Ok(())
}

fn admit(measure: Option<Measure>, stream: &[u8]) -> Result<Measure, Refusal> {
    let measure = measure.ok_or(Refusal::MeasureNotAllowed)?;
    if stream.len() > crate::measure::LONGEST_STREAM {
        return Err(Refusal::StreamTooLong);
    }
    Ok(measure)
}

/// Each page handed over, and a used last page, as binary PBM.
pub fn write_pages(
    measure: Option<Measure>,
    stream: &[u8],
    out: &mut dyn Write,
) -> Result<(), Stopped> {
    let measure = admit(measure, stream)?;
    let mut page = page_buffer(&measure);
    let mut reading = Reading::start(measure, stream, &mut page);
    while reading.has_item() {
        let ran = reading.run(u64::MAX)?;
        if ran.page_ended {
            write_pbm(out, &measure, reading.sheet.page(&measure))?;
        }
    }
    if reading.state.used {
        write_pbm(out, &measure, reading.sheet.page(&measure))?;
    }
    Ok(())
}

fn write_pbm(out: &mut dyn Write, measure: &Measure, page: &[u8]) -> io::Result<()> {
    write!(out, "P4\n{} {}\n", measure.width(), measure.height())?;
    out.write_all(page)
}

/// A line for each item and page, then the end state.
pub fn write_trace(
    measure: Option<Measure>,
    stream: &[u8],
    out: &mut dyn Write,
) -> Result<(), Stopped> {
    let measure = admit(measure, stream)?;
    let mut page = page_buffer(&measure);
    let mut reading = Reading::start(measure, stream, &mut page);
    let mut items: u64 = 0;
    let mut findings: u64 = 0;
    while reading.has_item() {
        let began = reading.place;
        // One item a run, so that each can be listed.
        let ran = reading.run(1)?;
        items += ran.done;
        findings += u64::from(ran.found.is_some());
        let finding = ran.found.map_or(0, |found| found.finding.number());
        let bytes = reading.place.saturating_sub(began);
        writeln!(out, "ITEM\t{began}\t{bytes}\t{finding}")?;
        if ran.page_ended {
            reading.write_page_line(out, reading.pages)?;
        }
    }
    reading.write_last_page_line(out)?;
    write_end_state(out, &measure, &reading.state)?;
    writeln!(out, "COUNT\t{items}\t{findings}")?;
    Ok(())
}

/// A line for each finding: its place, its number, and the cursor as its item
/// began, before the item did anything.
pub fn write_marks(
    measure: Option<Measure>,
    stream: &[u8],
    out: &mut dyn Write,
) -> Result<(), Stopped> {
    let measure = admit(measure, stream)?;
    let mut page = page_buffer(&measure);
    let mut reading = Reading::start(measure, stream, &mut page);
    while reading.has_item() {
        if let Some(found) = reading.run(u64::MAX)?.found {
            writeln!(out, "{}", mark_fields(&found))?;
        }
    }
    Ok(())
}

/// The parked text after this many items, or after all if there are fewer. A run
/// stops behind findings and page ends; the job goes on all the same.
pub fn write_parked(
    measure: Option<Measure>,
    items: u64,
    stream: &[u8],
    out: &mut dyn Write,
) -> Result<(), Stopped> {
    let measure = admit(measure, stream)?;
    let mut page = page_buffer(&measure);
    let mut reading = Reading::start(measure, stream, &mut page);
    let mut left = items;
    while left > 0 && reading.has_item() {
        left = left.saturating_sub(reading.run(left)?.done);
    }
    let (width, height) = (u64::from(measure.width()), u64::from(measure.height()));
    let text = parked_text(width, height, &reading.state)?;
    out.write_all(text.as_bytes())?;
    Ok(())
}

fn write_end_state(out: &mut dyn Write, measure: &Measure, state: &State) -> io::Result<()> {
    writeln!(
        out,
        "END\t{}\t{}\t{}\t{}\t{}\t{}\t{}\t{}\t{}\t{}\t{}\t{}\t{}\t{}",
        state.x,
        state.y,
        state.left_margin,
        state.right_margin,
        state.top_margin,
        state.hmi,
        state.vmi,
        state.line_termination,
        state.resolution,
        state.method,
        u8::from(state.started),
        state.graphics_margin,
        u8::from(state.used),
        state.depth
    )?;
    let depth = usize::try_from(state.depth).unwrap_or(usize::MAX);
    for position in state.stack.iter().take(depth) {
        writeln!(out, "STACK\t{}\t{}", position.x, position.y)?;
    }
    write!(out, "SEED\t")?;
    for byte in state.seed.iter().take(measure.row_bytes()) {
        write!(out, "{byte:02X}")?;
    }
    writeln!(out)
}
