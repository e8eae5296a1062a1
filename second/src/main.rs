//! The command line. Standard input is the stream, standard output the result.

#![forbid(unsafe_code)]

use second::cases::{run_cases, CasesStopped};
use second::leaves::run_leaves;
use second::measure::{Measure, LONGEST_STREAM};
use second::park::{listing, unpark};
use second::plain::translate;
use second::report::{
    write_marks, write_pages, write_parked, write_report, write_trace, Stopped,
    LONGEST_REPORT_INPUT,
};
use second::run::Refusal;
use std::ffi::OsString;
use std::fs::File;
use std::io::{self, BufRead, BufReader, BufWriter, Read, Write};
use std::process::ExitCode;

const USAGE: &str = "usage: report | pages W H | plain W H | trace W H | marks W H | \
    park W H [-n ITEMS] | unpark | cases FILE | leaves FILE";

/// The first words there are.
const WORDS: [&str; 9] = [
    "report", "pages", "plain", "trace", "marks", "park", "unpark", "cases", "leaves",
];

/// Everything that does not end with exit status 0.
enum Failure {
    /// Exit status 1, one line on standard error that says what.
    Fault(String),
    /// Exit status 2, `REFUSED` and the number.
    Refused(Refusal, RefusalGoesTo),
}

#[derive(Clone, Copy)]
enum RefusalGoesTo {
    StandardOutput,
    StandardError,
}

fn main() -> ExitCode {
    let words: Vec<OsString> = std::env::args_os().skip(1).collect();
    match command(&words) {
        Ok(()) => ExitCode::SUCCESS,
        Err(Failure::Fault(what)) => complain(&what),
        Err(Failure::Refused(refusal, goes_to)) => refuse(refusal, goes_to),
    }
}

/// A standard error that cannot be written to has no one to tell.
fn complain(what: &str) -> ExitCode {
    let _ = writeln!(io::stderr(), "second: {what}");
    ExitCode::from(1)
}

fn refuse(refusal: Refusal, goes_to: RefusalGoesTo) -> ExitCode {
    let line = format!("REFUSED\t{}\n", refusal.number());
    let written = match goes_to {
        RefusalGoesTo::StandardOutput => {
            let mut out = io::stdout().lock();
            out.write_all(line.as_bytes()).and_then(|()| out.flush())
        }
        RefusalGoesTo::StandardError => {
            let _ = io::stderr().write_all(line.as_bytes());
            Ok(())
        }
    };
    match written {
        Ok(()) => ExitCode::from(2),
        Err(error) => complain(&format!("cannot write: {error}")),
    }
}

fn command(words: &[OsString]) -> Result<(), Failure> {
    let (word, rest) = match words.split_first() {
        Some(found) => found,
        None => {
            return Err(Failure::Fault(format!("a word is missing; {USAGE}")));
        }
    };
    match (word.to_str(), rest) {
        (Some("report"), []) => report(),
        (Some("pages"), [width, height]) => pages(measure(width, height)?),
        (Some("plain"), [width, height]) => plain(measure(width, height)?),
        (Some("trace"), [width, height]) => trace(measure(width, height)?),
        (Some("marks"), [width, height]) => marks(measure(width, height)?),
        (Some("cases"), [file]) => answer_file(file, run_cases),
        (Some("leaves"), [file]) => answer_file(file, run_leaves),
        (Some("park"), [width, height]) => park(measure(width, height)?, u64::MAX),
        (Some("park"), [width, height, option, items]) if option == "-n" => {
            // What no type holds is more than the items of any stream.
            let measure = measure(width, height)?;
            park(measure, number_word(items, "ITEMS")?)
        }
        (Some("park"), [_, _, _, _]) => Err(a_word_is_wrong()),
        (Some("unpark"), []) => unpark_input(),
        (Some(word), _) if WORDS.contains(&word) => Err(Failure::Fault(format!(
            "too few or too many words; {USAGE}"
        ))),
        _ => Err(a_word_is_wrong()),
    }
}

fn a_word_is_wrong() -> Failure {
    Failure::Fault(format!("a word is wrong; {USAGE}"))
}

/// A measure that is not allowed is None, and refused later; what is no
/// decimal number at all is a fault.
fn measure(width: &OsString, height: &OsString) -> Result<Option<Measure>, Failure> {
    // Too large for the type is no allowed measure either.
    let width = number_word(width, "W")?;
    let height = number_word(height, "H")?;
    Ok(Measure::allowed(width, height))
}

/// A decimal number; one too large for the type is the greatest of it.
fn number_word(word: &OsString, name: &str) -> Result<u64, Failure> {
    match word.to_str() {
        Some(text) if !text.is_empty() && text.bytes().all(|byte| byte.is_ascii_digit()) => {
            Ok(text.parse().unwrap_or(u64::MAX))
        }
        _ => Err(Failure::Fault(format!("{name} is not a decimal number"))),
    }
}

/// Standard input, but at most one byte more than `limit`: enough to know that
/// it is too long.
fn read_input(limit: usize) -> Result<Vec<u8>, Failure> {
    let mut bytes = Vec::new();
    io::stdin()
        .lock()
        .take(limit as u64 + 1)
        .read_to_end(&mut bytes)
        .map_err(cannot_read_input)?;
    Ok(bytes)
}

fn cannot_read_input(error: io::Error) -> Failure {
    Failure::Fault(format!("cannot read standard input: {error}"))
}

/// The stream of `pages`, `plain`, `trace`, `marks` and `park`. A measure not
/// allowed is refused before anything is read: 10 before 12.
fn read_stream(measure: Option<Measure>, goes_to: RefusalGoesTo) -> Result<Vec<u8>, Failure> {
    if measure.is_none() {
        return Err(Failure::Refused(Refusal::MeasureNotAllowed, goes_to));
    }
    read_input(LONGEST_STREAM)
}

fn output() -> BufWriter<io::StdoutLock<'static>> {
    BufWriter::with_capacity(1 << 16, io::stdout().lock())
}

fn cannot_write(error: io::Error) -> Failure {
    Failure::Fault(format!("cannot write: {error}"))
}

fn failure(stopped: Stopped, goes_to: RefusalGoesTo) -> Failure {
    match stopped {
        Stopped::Refused(refusal) => Failure::Refused(refusal, goes_to),
        Stopped::Output(error) => cannot_write(error),
    }
}

fn report() -> Result<(), Failure> {
    let input = read_input(LONGEST_REPORT_INPUT)?;
    let mut out = output();
    write_report(&input, &mut out)
        .map_err(|stopped| failure(stopped, RefusalGoesTo::StandardOutput))?;
    out.flush().map_err(cannot_write)
}

fn pages(measure: Option<Measure>) -> Result<(), Failure> {
    answer_stream(measure, RefusalGoesTo::StandardError, write_pages)
}

fn trace(measure: Option<Measure>) -> Result<(), Failure> {
    answer_stream(measure, RefusalGoesTo::StandardOutput, write_trace)
}

fn marks(measure: Option<Measure>) -> Result<(), Failure> {
    answer_stream(measure, RefusalGoesTo::StandardOutput, write_marks)
}

fn park(measure: Option<Measure>, items: u64) -> Result<(), Failure> {
    let goes_to = RefusalGoesTo::StandardOutput;
    answer_stream(measure, goes_to, |measure, stream, out| {
        write_parked(measure, items, stream, out)
    })
}

/// Reads a stream on a page of its own and writes, by `write_stream`, what is
/// asked of it.
fn answer_stream(
    measure: Option<Measure>,
    goes_to: RefusalGoesTo,
    write_stream: impl Fn(Option<Measure>, &[u8], &mut dyn Write) -> Result<(), Stopped>,
) -> Result<(), Failure> {
    let stream = read_stream(measure, goes_to)?;
    let mut out = output();
    write_stream(measure, &stream, &mut out).map_err(|stopped| failure(stopped, goes_to))?;
    out.flush().map_err(cannot_write)
}

fn plain(measure: Option<Measure>) -> Result<(), Failure> {
    let goes_to = RefusalGoesTo::StandardError;
    let stream = read_stream(measure, goes_to)?;
    let (width, height) = measure.map_or((0, 0), |measure| {
        (u64::from(measure.width()), u64::from(measure.height()))
    });
    let mut room = vec![0; LONGEST_STREAM];
    let length = translate(width, height, &stream, &mut room)
        .map_err(|refusal| Failure::Refused(refusal, goes_to))?;
    let mut out = output();
    out.write_all(room.get(..length).unwrap_or(&room))
        .and_then(|()| out.flush())
        .map_err(cannot_write)
}

/// The bytes of an input one after the other. They end at an error too, which
/// is kept.
struct InputBytes<R: Read> {
    bytes: io::Bytes<R>,
    error: Option<io::Error>,
}

impl<R: Read> Iterator for InputBytes<R> {
    type Item = u8;

    fn next(&mut self) -> Option<u8> {
        match self.bytes.next()? {
            Ok(byte) => Some(byte),
            Err(error) => {
                self.error = Some(error);
                None
            }
        }
    }
}

/// The text may be of any length, so it is not kept but read byte by byte.
fn unpark_input() -> Result<(), Failure> {
    let mut text = InputBytes {
        bytes: io::stdin().lock().bytes(),
        error: None,
    };
    let result = unpark(&mut text);
    if let Some(error) = text.error {
        return Err(cannot_read_input(error));
    }
    let parked =
        result.map_err(|refusal| Failure::Refused(refusal, RefusalGoesTo::StandardOutput))?;
    let mut out = output();
    out.write_all(listing(&parked).as_bytes())
        .and_then(|()| out.flush())
        .map_err(cannot_write)
}

/// Answers the cases of a file, one to a line.
type AnswerCases = fn(&mut dyn BufRead, &mut dyn Write) -> Result<(), CasesStopped>;

fn answer_file(file: &OsString, answer_cases: AnswerCases) -> Result<(), Failure> {
    let mut out = output();
    let result = if file == "-" {
        answer_cases(&mut io::stdin().lock(), &mut out)
    } else {
        let opened = File::open(file)
            .map_err(|error| Failure::Fault(format!("cannot read the file of cases: {error}")))?;
        answer_cases(&mut BufReader::with_capacity(1 << 16, opened), &mut out)
    };
    // The answers before a bad line are good, and are written.
    let flushed = out.flush();
    match result {
        Err(CasesStopped::Line(number)) => Err(Failure::Fault(format!(
            "line {number} is not of the form of a case"
        ))),
        Err(CasesStopped::Input(error)) => {
            Err(Failure::Fault(format!("cannot read the cases: {error}")))
        }
        Err(CasesStopped::Output(error)) => Err(cannot_write(error)),
        Ok(()) => flushed.map_err(cannot_write),
    }
}
