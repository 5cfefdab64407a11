"""Plans and verdicts with a job's further keys, beside those without them."""
import os
import sys

import common
from jobs import SIZES, cutter_keys, write_job

WORKERS = (1, 4)


def camtool(*words):
    return [os.path.join(common.ROOT, "camtool"), *words]


def make_inputs(folder, name, cutter, word, keys_of):
    """Makes the jobs with the further keys and without, and the part, and gives their files."""
    size = SIZES[name]
    keys = cutter_keys(name, cutter)
    jobs = []
    for end, more in ((word, keys_of(keys, size.plan)), ("free", {})):
        jobs.append(os.path.join(folder, f"{name}_{cutter}_{end}.toml"))
        write_job(jobs[-1], keys, size.plan, more)
    return jobs, common.make_part(folder, size.part)


def best(name, words):
    """The least time of some runs, and the line that they print."""
    runs = [common.run(words) for _ in range(SIZES[name].rounds)]
    return min(runs).seconds, runs[0].printed.strip()


def same_counts(line, other):
    """Whether two lines `accepted moves M columns C left ..` have the same M and C."""
    return line.split()[:5] == other.split()[:5]


def measure(folder, name, cutter, workers, word, keys_of):
    """A row of the table, and whether the plan with the keys is accepted by both jobs."""
    (job, free), part = make_inputs(folder, name, cutter, word, keys_of)
    out, other = (os.path.join(folder, f"{name}_{cutter}_{end}.ngc") for end in (word, "free"))
    option = f"--workers={workers}"
    common.note(f"{name}, {cutter}, {workers} workers")
    planned, line = best(name, camtool("plan", job, part, out, option))
    freely, other_line = best(name, camtool("plan", free, part, other, option))
    verified, verdict = best(name, camtool("verify", job, part, out, option))
    loosely, other_verdict = best(name, camtool("verify", free, part, out, option))
    row = [name, cutter, f"{workers}", line.split()[2], other_line.split()[2]]
    row += [f"{planned:.2f}", f"{freely:.2f}", f"{planned / freely:.2f}"]
    row += [f"{verified:.2f}", f"{loosely:.2f}", f"{verified / loosely:.2f}"]
    # (what is left, and what was judged with, may differ by the keys)
    agrees = verdict.startswith("accepted " + line.partition(" ")[2]) and same_counts(verdict, other_verdict)
    if not agrees:
        print(f"{name}, {cutter}: {line}; {verdict}; {other_verdict}", file=sys.stderr)
    return row, agrees


def main(about, words, word, keys_of):
    """Prints the table for the sizes that the words name, and gives the status: 0 where all agree.

    `keys_of` gives the further keys of a job by its others and a plan's; `word` names the files with them.
    """
    names = [it for it in words if not it.startswith("--folder=")] or ["large"]
    if any(name not in SIZES or name == "limits" for name in names):
        common.usage(about)
    print(common.machine(), flush=True)
    rows, all_agree = [], True
    with common.work_folder(words) as folder:
        # So that it is built before the first measured run.
        common.run(camtool("--version"))
        for name in names:
            for cutter in SIZES[name].allowances:
                for workers in WORKERS:
                    row, agrees = measure(folder, name, cutter, workers, word, keys_of)
                    rows.append(row)
                    all_agree = all_agree and agrees
    heads = ["size", "cutter", "workers", "moves", "moves without", "plan s", "without", "times", "verify s", "without", "times"]
    common.table(heads, rows)
    return 0 if all_agree else 1
