"""camtool-where JOB PART [FILE] [-] [--report=REPORT] [--picture=SVG]
camtool-where --all PROGRAM [JOB PART]

Shows where a verdict points. Of a program that is rejected it names every move that fails: the line of
the program, the place on the move in millimetres, the corners of the triangle or the place of the column,
and by how much the move has to be lifted to pass the part; and then the columns of stock that are left
too high. It writes a picture of the part from above with all of them on it, where.svg if no other name is
given. Of a text that is refused it shows the line, and says what is wrong there and what to do. Of a program
that is accepted it says in millimetres what that rests on, and draws it too.

It runs `./camreport JOB PART FILE` where that is built (`./camreport --version` builds it). Where it isn't,
it runs `./camtool verify JOB PART FILE`, which names the first failing test alone; and where FILE is a list
of steps, a .toml, `./camtool rest`, which does so too. It can also take what was printed before: a report
of camreport's from the file REPORT, or with a word `-` a report, or the line that camtool printed, from
standard input. With no FILE that line is one of `plan`.

Where it runs camtool by itself it asks again with one thing changed, and says what passes then: an overcut of
a few units more, half the radius, the radii of two steps swapped, the part with another unit, zero or side.

With --all it tells all that camtool refuses of a program, or of the programs of a list, and not the first
fault alone. It strikes that in a copy, in a folder for the while, and asks camtool again, up to 200 times; the
program stays as it is. Of a job it takes the keys by which it reads programs; with none it finds the unit by itself.

This is a help for reading, and no part of what is proved: it reads the texts anew, by itself, and
takes their form from docs/FORMATS.md. Python 3.9 or later, with its standard library alone.
Status: 0 where it showed something, 1 where there is nothing to show, 2 where it could not.
"""
import hashlib
import json
import re
import shlex
import sys

from camtool import again, causes, command, lint, programs, texts
from camtool.command import say, stop
from camtool.command import read as text_of
from camtool.fit import suspects
from camtool.picture import draw, left_out
from camtool.places import Files, Marks, reasons_of_line, reasons_of_report, tell, tell_accepted, tell_report
from camtool.refusals import tell_refusal
from camtool.sentences import refusal_of


def asked_by(words):
    """Returns what the words ask for: the `names` of the files, whether a line is `given`, the `report` and the `picture`."""
    reader = command.Words(__doc__)
    reader.add_argument("names", nargs="*")
    reader.add_argument("--all")
    reader.add_argument("--report")
    reader.add_argument("--picture", default="where.svg")
    asked = reader.read(words)
    asked.given = "-" in asked.names
    asked.names = [it for it in asked.names if it != "-"]
    asked.picture = asked.picture or "where.svg"
    if asked.all is not None:
        return asked_for_all(reader, asked)
    least = 2 if asked.given else 3
    if not least <= len(asked.names) <= 3 or (asked.given and asked.report is not None):
        reader.error("the words are JOB PART FILE, or JOB PART [FILE] - with what was printed on standard input")
    return asked


def asked_for_all(reader, asked):
    """Returns what the words with --all ask for: the program or the list as `all`, and the job as `names[0]` if any."""
    names = [asked.all, *asked.names]
    if len(names) == 3 and names[0].endswith(".toml"):
        # (the usual three words, and --all before them)
        names = [names[2], *names[:2]]
    if len(names) not in (1, 3) or asked.given or asked.report is not None:
        reader.error("with --all the words are PROGRAM or PROGRAM JOB PART")
    asked.all, *asked.names = names
    return asked


def printed(asked):
    """Returns what camreport or camtool prints, or has printed."""
    if asked.report is not None:
        return text_of(asked.report)
    if asked.given:
        return sys.stdin.buffer.read()
    words = ["camtool", "verify"]
    if asked.names[2].endswith(".toml"):
        words = ["camtool", "rest"]
    elif programs.is_built("camreport"):
        words = ["camreport"]
    try:
        return programs.run(*words, *asked.names).stdout
    except OSError as error:
        stop(str(error))


def verdict_of(text):
    """Returns the line of the verdict, and the report on it where it is one."""
    text = text.decode("utf-8", "replace")
    if not text.startswith("{"):
        return text.partition("\n")[0].strip(), {}
    try:
        report = json.loads(text)
        return report["line"], report
    except (ValueError, KeyError):
        stop("that is no report of camreport")


def check_sums(report, names):
    """Ends where the report is on other files."""
    for kind, name in zip(("job", "part", "program"), names):
        if report["sha256"][kind] != hashlib.sha256(text_of(name)).hexdigest():
            stop(f"{name} isn't the {kind} that the report is on: it has another checksum")


def named_steps(text, verdict):
    """Returns the steps of a list that a verdict is on: the one that it names by its number, or all; and the verdict without that number."""
    steps = texts.steps_of(text)
    named = re.fullmatch(r"(rejected|refused program)(?: file)? (\d+) (.*)", verdict)
    return ([steps[int(named[2])]], f"{named[1]} {named[3]}") if named else (steps, verdict)


def show_refusal(said, refused):
    """Shows what is told of a refusal, of which the sentence is the last."""
    *places, sentence = refused
    say([*said, *places, *([sentence] if sentence else [])])
    if not sentence:
        print("where: docs/FORMATS.md says what this refusal means", file=sys.stderr)
    return 0 if sentence else 1


def show_places(asked, steps, said, reasons, report):
    """Shows all places, and draws them."""
    files, marks = Files(asked.names, steps), Marks()
    told = tell_report(files, report, marks) if report else tell(files, reasons[0], marks)
    said = [*said, *told, *causes_of(asked, said[0])]
    say(said)
    draw(asked.picture, files, said, marks)
    say([*left_out(files, marks), f"picture: {asked.picture}"])
    is_all = report or asked.given or asked.names[2].endswith(".toml") or reasons[0].test == "left"
    if not is_all:
        print("where: the first failing test; ./camreport --version builds what shows all of them", file=sys.stderr)
    return 0


def causes_of(asked, verdict):
    """Returns the lines on what a rejection may rest on, where this command judged by itself: what passes with one thing
    changed, and what camtool-job suspects of unit, zero and sides."""
    if asked.given or asked.report is not None:
        return []
    said = again.tell_again(asked.names, verdict)
    try:
        return [*said, *suspects(*asked.names)]
    except (OSError, ValueError, KeyError, TypeError, ArithmeticError):
        # (they are only a help, and a text may have a form that they don't know)
        return said


def show_accepted(asked, steps, said):
    """Shows what an acceptance says in millimetres, and draws the part and the path."""
    if len(asked.names) < 3:
        stop("an acceptance is of a job, a part and a program")
    files, marks = Files(asked.names, steps), Marks()
    said = said + tell_accepted(files, said[0])
    say(said)
    draw(asked.picture, files, said, marks)
    say([*left_out(files, marks), f"what job and program leave open beside that: camtool-job {' '.join(map(shlex.quote, asked.names))}", f"picture: {asked.picture}"])
    return 0


def show_all(asked):
    """Shows all that is refused of a program, or of each of a list."""
    unit, habits = None, {}
    try:
        if asked.names:
            job = texts.job_of(text_of(asked.names[0]))
            unit, habits = job.get("unit", "hundredth"), {key: job[key] for key in lint.HABITS if key in job}
        is_list = asked.all.endswith(".toml")
        files = list(dict.fromkeys(it["program"] for it in texts.steps_of(text_of(asked.all)))) if is_list else [asked.all]
    except (ValueError, KeyError, TypeError, AttributeError) as error:
        stop(f"{asked.names[0] if asked.names and unit is None else asked.all}: {error}")
    count = 0
    for name in files:
        try:
            found, is_taken, its_unit = lint.all_refused(name, text_of(name), unit, habits)
        except (OSError, RuntimeError) as error:
            stop(str(error))
        say(lint.tell_all(name, found, is_taken, its_unit if unit is None else ""))
        count += len(found)
    return 0 if count else 1


def steps_on(asked, verdict):
    """Returns the steps that a verdict is on, and the verdict as of the one of a list that it names, if it names one."""
    steps = [{"program": it} for it in asked.names[2:]]
    is_list = asked.names[-1].endswith(".toml") or re.match(r"(rejected file|refused program) \d", verdict)
    if not is_list or not re.match("rejected|refused program|accepted", verdict):
        return steps, verdict
    try:
        return named_steps(text_of(asked.names[2]), verdict)
    except (ValueError, KeyError, IndexError) as error:
        stop(f"the list isn't that of the verdict: {error}")


def report_on(asked, report):
    """Returns the report where it has lists, and None of one on a refusal or a fault. Ends where it is on other files."""
    if "failing" not in report:
        return None
    if len(asked.names) < 3:
        stop("a report is on a job, a part and a program")
    check_sums(report, asked.names)
    return report


def show(asked, verdict, report):
    """Shows what a line, and the report on it where there is one, point to. Returns the status."""
    words = causes.cause_of_words(verdict)
    if words:
        return show_refusal([verdict], [words])
    said = [verdict]
    # What is said of a list's program is shown as of that program alone, with its step's cutter.
    steps, verdict = steps_on(asked, verdict)
    refusal = refusal_of(verdict)
    if refusal:
        try:
            return show_refusal(said, tell_refusal(asked, steps, refusal))
        except (ValueError, ArithmeticError, LookupError, TypeError, AttributeError) as error:
            stop(f"the files aren't those of the verdict: {error}")
    report = report_on(asked, report)
    if verdict.startswith("accepted "):
        return show_accepted(asked, steps, said)
    reasons = reasons_of_report(report) if report else reasons_of_line(verdict)
    if not reasons:
        say(said)
        print("where: this line points to no place", file=sys.stderr)
        return 1
    return show_places(asked, steps, said, reasons, report)


def main(words=None):
    """The command: returns its status."""
    asked = asked_by(words)
    if asked.all is not None:
        return show_all(asked)
    verdict, report = verdict_of(printed(asked))
    if not verdict:
        stop("there is no line to show")
    return show(asked, verdict, report)
