"""What the tools share: how they read their words, which crates there are, what each stands on, about how long each
takes, and how a build ends and tells of a failure."""
import os
import re
import signal
import sys

ROOT = os.path.dirname(os.path.dirname(os.path.realpath(__file__)))
sys.path.insert(0, os.path.join(ROOT, "python"))
from camtool.command import Words

__all__ = ["ROOT", "Words", "ahead", "below", "chains", "named", "processors", "run_until_ended", "seconds", "show_end"]
# Lines of the checker that say nothing of a failure.
QUIET = re.compile(r": proved$|modules loaded=|^so far: |^rt: chose |^statements ")


def named():
    """Returns, by name, each crate's line of crates.txt and the crates of the repository that it names."""
    with open(f"{ROOT}/crates.txt", encoding="utf-8") as file:
        lines = [it.partition("#")[0].strip() for it in file]
    rows = {it.split(":")[0].split()[0]: it for it in lines if it}
    return {name: (row, [it for it in row.partition(":")[2].split() if it in rows]) for name, row in rows.items()}


def below(name, known):
    """Returns the crates that the crate stands on, each after those below it."""
    found = []
    for dep in known[name][1]:
        found += [it for it in [*below(dep, known), dep] if it not in found]
    return found


def seconds(names):
    """Returns about how many seconds a processor works at each of the crates, by tools/build.seconds; at one
    that isn't there as long as at the one in the middle."""
    found = {}
    with open(f"{ROOT}/tools/build.seconds", encoding="utf-8") as file:
        for line in file:
            words = line.partition("#")[0].split()
            if len(words) == 2:
                found[words[0]] = float(words[1])
    usual = sorted(found.values())[len(found) // 2] if found else 60.0
    return {it: found.get(it, usual) for it in names}


def chains(work, known):
    """Returns, for each crate of `work`, the seconds of the longest chain of crates that begins with it. `work`
    has each crate after those below it."""
    found = {}
    for name in reversed([*work]):
        found[name] = work[name] + max((found[it] for it in found if name in known[it][1]), default=0)
    return found


def ahead(work, known, processors):
    """Returns about how many seconds are left: the longest chain, or all the work shared out, whichever is more."""
    return max(max(chains(work, known).values(), default=0), sum(work.values()) / processors)


def processors():
    """Returns how many processors to use by CAMTOOL_JOBS, or None where it says none."""
    given = os.environ.get("CAMTOOL_JOBS", "")
    return int(given) if given.isdigit() and int(given) > 0 else None


def show_end(said):
    """Shows the last of what the checker said of a crate that failed."""
    for line in [it for it in said.splitlines() if not QUIET.search(it)][-60:]:
        print(f"  {line}", file=sys.stderr)


def run_until_ended(run, end):
    """Runs `run` and returns its status, 130 after Ctrl-C. `end`, which ends what still runs, is called in each
    case, and a second Ctrl-C doesn't leave half of it running."""
    for it in (signal.SIGTERM, signal.SIGHUP):
        signal.signal(it, lambda number, _: sys.exit(128 + number))
    try:
        return run()
    except KeyboardInterrupt:
        return 130
    finally:
        signal.signal(signal.SIGINT, signal.SIG_IGN)
        end()
