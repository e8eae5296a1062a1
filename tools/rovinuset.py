"""The words of ./rovinuset, and how each call ends: 0 clean, 1 findings and nothing else, 2 all that went wrong, with a line that says what."""

import os

import archive
import draw
import ending
import files
import goal
import pages
import park
import pbm
import plain
import programs
import record
import report
import stopping
import words


def on_job(word, given, takes, needed, kind=words.Call):
    """A call on a job, or a text. What is missing is said first, then what is wrong with its file; what is not built is built when the rest is right."""
    call = kind(word, given, takes)
    made = [programs.program(name) for name in needed(call)]
    programs.can_be_had(made)
    call.open()
    return call, made


def ready(call, made):
    """Builds the programs, reads the job, and gives how each program is run."""
    programs.build(made)
    call.read()
    return [programs.command_of(one) for one in made]


def on_page(call, made):
    """The same for the programs that take the page's measure."""
    return pages.Programs(call, *ready(call, made))


def drawing(given):
    call, made = on_job("draw", given, draw.TAKES, lambda _: ("pages", "plain"))
    draw.wanted_pages(call)
    draw.check_goal(call.goal)
    return draw.draw(call, on_page(call, made))


def recording(given):
    call, made = on_job("record", given, record.TAKES, lambda _: ("pages", "plain"))
    to = goal.Goal(call.goal, "record", call)
    return record.record(call, on_page(call, made), to)


def passing_on(given):
    call, made = on_job("plain", given, plain.TAKES, lambda _: ("pages", "plain"))
    to = goal.Goal(call.goal or "-", "plain stream", call)
    return plain.plain(call, on_page(call, made), to)


def pages_out(given):
    call, made = on_job("pages", given, pbm.TAKES, lambda _: ("pages",))
    return pbm.write_pages(call, *ready(call, made))


def reporting(given):
    call, made = on_job("report", given, report.TAKES, lambda call: ("pages",) if call.measured else ("report",))
    return report.report_on(call, on_page(call, made)) if call.measured else report.report(call, *ready(call, made))


def parking(given):
    call, made = on_job("park", given, park.TAKES, lambda _: ("park",))
    park.items(call)
    to = goal.Goal(call.goal or "-", "parked text", call)
    return park.park(call, *ready(call, made), to)


def unparking(given):
    call, made = on_job("unpark", given, park.TEXT_TAKES, lambda _: ("unpark",), words.Text)
    return park.unpark(call, *ready(call, made))


def bench(given):
    """The tables of docs/SPEED.md, as Markdown."""
    if given:
        raise ending.Wrong("bench takes no words")
    libraries = [programs.library("leaf_door"), programs.library("door")]
    programs.can_be_had(libraries)
    programs.build(libraries)
    ending.notice("measuring, which takes some minutes; the machine should have nothing else to do")
    for name in ("run", "stack"):
        with programs.running([os.path.join(programs.ROOT, "bench", name)], stdout=1) as measured:
            pass
        if measured.returncode:
            raise ending.Wrong("it was not measured to the end")
    return ending.CLEAN


COMMANDS = {
    "draw": drawing,
    "record": recording,
    "plain": passing_on,
    "pages": pages_out,
    "report": reporting,
    "park": parking,
    "unpark": unparking,
    "archive": archive.archive,
    "bench": bench,
}


def done(word, given):
    if word not in COMMANDS:
        raise ending.Wrong(f"no such word: {files.printed(word)} (./rovinuset help has them all)")
    return COMMANDS[word](given)


def why(word, error):
    """What is said of what went wrong."""
    if isinstance(error, ending.Wrong):
        return str(error)
    if isinstance(error, pages.Unread):
        return f"{word}: {error}"
    if isinstance(error, OSError):
        return f"{word}: not written: {files.reason(error)}"
    if isinstance(error, pages.Broken):
        return f"{word}: not written: the program broke off: {error}"
    if isinstance(error, KeyboardInterrupt):
        written = stopping.Asked.written
        return f"{word}: not written: stopped" if written is None else f"{word}: {files.printed(written)} is written, its summary is not: stopped"
    if isinstance(error, MemoryError):
        return f"{word}: not written: not enough memory"
    return f"{word}: not written: {type(error).__name__}: {error}"


def main(word, *given):
    try:
        try:
            stopping.watch()
            os.umask(os.umask(0o077) & 0o077)  # one that takes the owner's own rights would leave what cannot be removed
            status = done(word, given)
        finally:
            stopping.over()
    except ending.Quiet:
        status = ending.WRONG
    except BaseException as error:
        ending.notice(why(word, error))
        status = ending.WRONG
    files.tidy()
    return status
