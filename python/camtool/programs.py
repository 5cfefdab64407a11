"""Finds camtool and camreport, and runs them.

A program is the one that the environment names, by CAMTOOL or CAMREPORT; in a checkout the launcher at its root, which
builds what isn't built; and otherwise the one on the PATH.
"""
import os
import shutil
import subprocess

# The root of the checkout that the package lies in, or None where it is installed.
ROOT = os.path.dirname(os.path.dirname(os.path.dirname(os.path.realpath(__file__))))
ROOT = ROOT if os.path.isfile(os.path.join(ROOT, "crates.txt")) else None


# The programs that a launcher has run in this process: they are built, and what they are made of was looked at.
LAUNCHED = set()


def built(name):
    """Returns the file to which the checkout's launcher builds a program."""
    return os.path.join(ROOT, "crates", name, "out", name)


def found(name):
    """Returns the file of a program, "camtool" or "camreport"; None where there is none."""
    named = os.environ.get(name.upper())
    if named:
        return named
    if not ROOT:
        return shutil.which(name)
    return built(name) if name in LAUNCHED else os.path.join(ROOT, name)


def is_in_dist(name):
    """Returns whether the checkout's dist/ has a program, built of the sources as they are: tools/launch says so."""
    asked = 'root=$1; . "$root/tools/launch"; is_in_dist "$2"'
    ran = subprocess.run(["bash", "-c", asked, "bash", ROOT, name], stdout=subprocess.DEVNULL, stderr=subprocess.DEVNULL, check=False)
    return ran.returncode == 0


def is_built(name):
    """Returns whether a program can be run at once: it is on the PATH, is named, was built in the checkout, or stands
    in dist/ as it was built of the checkout's sources."""
    if os.environ.get(name.upper()) or not ROOT:
        file = found(name)
        return bool(file) and os.access(file, os.X_OK)
    return os.access(built(name), os.X_OK) or is_in_dist(name)


def run(name, *words, folder=None):
    """Runs a program in a folder (the current one, if None), whose standard error is the caller's. Returns a
    CompletedProcess: `returncode`, and bytes as `stdout`. Raises FileNotFoundError where there is no such program."""
    file = found(name)
    if file is None:
        raise FileNotFoundError(f"there is no {name}: put it on the PATH, or name it by {name.upper()}")
    ended = subprocess.run([file, *words], cwd=folder, stdout=subprocess.PIPE)
    if ROOT and file == os.path.join(ROOT, name) and os.access(built(name), os.X_OK):
        # (a launcher looks at all sources, which takes longer than most verdicts)
        LAUNCHED.add(name)
    return ended
