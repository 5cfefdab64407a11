"""The jobs that the benches verify and plan: their sizes, and how they are written."""
import common

SAMPLE = {
    "radius": 100,
    "floor": 0,
    "top": 200,
    "clear": 300,
    "home": [0, 0],
    "pitch": 50,
    "sample": 50,
    "band": 0,
}
SAMPLE_PLAN = {"layer": 50, "rough_raster": 100, "raster": 50, "lift": 8}
BUMPS = {
    "radius": 150,
    "floor": 0,
    "top": 1500,
    "clear": 2000,
    "home": [0, 0],
    "pitch": 25,
    "sample": 25,
    "band": 150,
}
BUMPS_PLAN = {"layer": 300, "rough_raster": 150, "raster": 25, "lift": 10}


class Size:
    """What is measured: a part, the job but for its cutter, and what a planner reads besides."""

    def __init__(self, part, job, plan, allowances, rounds=common.ROUNDS):
        self.part = part
        self.job = {"area": [0, 0, common.side(part), common.side(part)], **job}
        self.plan = plan
        self.allowances = allowances
        self.rounds = rounds


SIZES = {
    "small": Size("sample 32", SAMPLE, SAMPLE_PLAN, {"flat": 60, "ball": 40, "cone": 40}),
    "middle": Size("sample 100", SAMPLE, SAMPLE_PLAN, {"flat": 60, "ball": 40, "cone": 40}),
    "large": Size("bumps", BUMPS, BUMPS_PLAN, {"flat": 200, "ball": 40, "cone": 40}),
    # Nearly 1,000,000 moves and 4,000,000 columns: finishing alone, closely, over a little more than the part.
    "limits": Size(
        "bumps",
        {**BUMPS, "area": [0, 0, 7996, 7900], "pitch": 4},
        {"raster": 8, "lift": 10},
        {"ball": 40},
        rounds=1,
    ),
}


def write_job(path, *keys):
    """Writes a job's file with the keys of these dicts."""
    with open(path, "w", encoding="utf-8") as file:
        for key, value in (item for some in keys for item in some.items()):
            file.write(f'{key} = "{value}"\n' if isinstance(value, str) else f"{key} = {value}\n")


def cutter_keys(name, cutter):
    """The keys of a size's job with this cutter, but for a planner's."""
    size = SIZES[name]
    form = {"cutter": cutter, **({"rise": 2, "run": 1} if cutter == "cone" else {})}
    return {**form, **size.job, "allowance": size.allowances[cutter]}
