"""What the scripts share that call the built program from outside: where it is, calls, and what a folder holds."""
import hashlib
import os
import resource
import signal
import stat
import subprocess
import sys
import typing

ROOT = os.path.dirname(os.path.dirname(os.path.abspath(__file__)))
# A file longer than this is told by its size, its time and how much of it is on the disk, and not by its bytes.
TOLD_BYTES = 1 << 27


def option(words, name, usual=None):
    """The value of the last word --NAME=VALUE, or the usual one."""
    found = [word.partition("=")[2] for word in words if word.startswith(f"--{name}=")]
    return found[-1] if found else usual


def program(words, name="camtool", word="program"):
    """The file of a program: that of the word --program=FILE, or the one that the launcher runs, which is built where it
    has to be."""
    named = option(words, word)
    if named:
        return os.path.abspath(named)
    script = 'set -u; root=$1; . "$root/tools/launch"; find_program "$2" yes && printf %s "$program"'
    return subprocess.run(["bash", "-c", script, "bash", ROOT, name], stdout=subprocess.PIPE, text=True, check=True).stdout


class Ended(typing.NamedTuple):
    """How a call ended: its status, or minus the signal that stopped it, and what it wrote; None where it had to be stopped."""

    status: typing.Optional[int]
    printed: bytes
    errors: bytes

    def __str__(self):
        if self.status is None:
            how = "no end"
        elif self.status < 0:
            how = f"stopped by {signal.Signals(-self.status).name}"
        else:
            how = f"status {self.status}"
        return f"{how}: {shown(self.printed)}" + (f" and as errors {shown(self.errors)}" if self.errors else "")


def shown(text):
    """A text for a message: its first bytes."""
    return repr(text if len(text) <= 200 else text[:200] + b"..")[1:]


def call(words, seconds=60, limits=(), before=None, **how):
    """Calls a program. `limits` are pairs of a limit of `resource` and its value; `before` is called in the child."""

    def prepare():
        for limit, most in limits:
            resource.setrlimit(limit, (most, most))
        if before:
            before()

    how = {"stdin": subprocess.DEVNULL, "stdout": subprocess.PIPE, "stderr": subprocess.PIPE, **how}
    with subprocess.Popen(words, preexec_fn=prepare, **how) as child:
        try:
            printed, errors = child.communicate(timeout=seconds)
        except subprocess.TimeoutExpired:
            child.kill()
            printed, errors = child.communicate()
            return Ended(None, printed or b"", errors or b"")
    return Ended(child.returncode, printed or b"", errors or b"")


def contents(path):
    """What stands under a name: its kind and permissions, and what it holds."""
    found = os.lstat(path)
    kind, mode = stat.S_IFMT(found.st_mode), stat.S_IMODE(found.st_mode)
    if stat.S_ISLNK(found.st_mode):
        return kind, mode, os.readlink(path)
    if not stat.S_ISREG(found.st_mode):
        return kind, mode, None
    if found.st_size > TOLD_BYTES:
        return kind, mode, (found.st_size, found.st_mtime_ns, found.st_blocks)
    return kind, mode, digest(path, mode)


def digest(path, mode):
    """A checksum of a file's bytes, also where its permissions don't let its owner read it."""
    is_locked = not os.access(path, os.R_OK)
    if is_locked:
        os.chmod(path, mode | 0o400)
    with open(path, "rb") as file:
        if is_locked:
            os.chmod(path, mode)
        total = hashlib.sha256()
        for piece in iter(lambda: file.read(1 << 20), b""):
            total.update(piece)
        return total.hexdigest()


def state(folder):
    """All that a folder holds, by name."""
    names = []
    for at, folders, files in os.walk(os.fsencode(folder)):
        names += [os.path.join(at, name) for name in folders + files]
    return {os.path.relpath(name, os.fsencode(folder)): contents(name) for name in sorted(names)}


def usage(text):
    """Ends with a script's first text, as where its words are none that it knows."""
    print(text.strip(), file=sys.stderr)
    sys.exit(2)
