"""What the commands of the package share: how they read their words, and how they end.

A command is a module whose own text begins with its usage and whose `main(words=None)` returns its status: 0 where it
did what it is for, 1 where there was nothing to do, 2 where it could not, or was called with other words.
"""
import argparse
import os
import signal
import sys

# The most characters that are shown of a line of a file.
SHOWN = 200


def called():
    """Returns the name by which the command was called: `camtool-where`, or `where` by its short link."""
    return os.path.basename(sys.argv[0]).removesuffix(".py") or "camtool"


def by_number(character):
    """Returns a character that can't be printed as its number, and one that stands for a byte as that byte's."""
    code = ord(character)
    code -= 0xDC00 if 0xDC80 <= code <= 0xDCFF else 0
    return f"\\x{code:02x}" if code < 0x100 else f"\\u{code:04x}"


def plain(text):
    """Returns a text as it can be printed: a control character goes to no terminal."""
    return text if text.isprintable() else "".join(it if it.isprintable() else by_number(it) for it in text)


def quoted(line):
    """Returns a line of a file as it can be printed, and no more of it than is read."""
    line = line.decode("utf-8", "surrogateescape") if isinstance(line, bytes) else line
    line = line.strip().replace("\t", " ")
    more = f" .. ({len(line):,} characters)" if len(line) > SHOWN else ""
    return plain(line[:SHOWN]) + more if line else "(blank)"


def counted(count, one, more):
    """Returns a count with its noun, as `1 move` or `2,000 moves`."""
    return f"{count:,} {one if count == 1 else more}"


def say(lines):
    """Prints lines, each as it can be printed."""
    print(*map(plain, lines), sep="\n")


def stop(why):
    """Ends with status 2, and says why on standard error, behind the command's name."""
    print(f"{called()}: {plain(why)}", file=sys.stderr)
    sys.exit(2)


def read(name):
    """Returns the bytes of a file, or stops with why it can't be read."""
    try:
        with open(name, "rb") as file:
            return file.read()
    except (OSError, ValueError) as error:
        stop(f"{name}: {getattr(error, 'strerror', None) or error}")


def write(name, text):
    """Writes a text to a file in UTF-8, or stops with why it can't be written."""
    try:
        with open(name, "w", encoding="utf-8") as file:
            file.write(text)
    except OSError as error:
        stop(f"{name}: {error.strerror}")


def usage_of(doc):
    """Returns the usage of a command: the first paragraph of its module's text."""
    return doc.split("\n\n", maxsplit=1)[0]


class Words(argparse.ArgumentParser):
    """Reads a command's words. `--help` prints the module's own text; other words end with its usage and status 2."""

    def __init__(self, doc):
        super().__init__(prog=called(), allow_abbrev=False)
        self.doc = doc

    def format_help(self):
        """Returns the module's own text, for `--help`."""
        return self.doc

    def error(self, message):
        """Ends with the usage, what was wrong with the words, and status 2."""
        print(usage_of(self.doc), file=sys.stderr)
        print(f"{called()}: {plain(message)}", file=sys.stderr)
        sys.exit(2)

    def read(self, words=None):
        """Returns what the words say, as a namespace: those given, or the call's own. Options may stand anywhere."""
        if words is None:
            words = sys.argv[1:]
            sys.stdout.reconfigure(errors="backslashreplace")
            if hasattr(signal, "SIGPIPE"):
                # (so that a reader such as `head` may go)
                signal.signal(signal.SIGPIPE, signal.SIG_DFL)
        return self.parse_intermixed_args(words)
