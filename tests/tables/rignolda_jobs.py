"""The jobs that `rignolda worst` and `rignolda random` print."""

import json

from tables.reader import EVENTS, LOSSES
from tables.rows import Row, like, printed, same


def worst(capacity, labels):
    """The command line of the worst job."""
    return ["worst", "--capacity", str(capacity), "--labels", str(labels)]


def random(**options):
    """The command line of a random job."""
    return ["random"] + [f"--{name}={value}" for name, value in options.items()]


WORST = like(
    begins='{"capacity":1,"events":[["offer",10],"recv_ack","send_ack",["offer",11],',
    ends='"start":{"acks":[0],"frames":[[2,900]],"recv":1,"send":0}}',
)

# The options of a small job, those that a command line has where it names none, and others, which
# all differ from these.
SMALL = dict(nodes=8, items=10, capacity=2, turns=1000, loss=100, repeat=100, hold=2, schedule=40)
LEFT_OUT = dict(SMALL, turns=100000, schedule=200)
OTHERS = dict(nodes=40, items=3, capacity=5, turns=77, loss=12, repeat=34, hold=9, schedule=600)


def of_all_sizes(seed):
    """Options of all sizes: from a lone root to 64 nodes whose links hold 64 entries."""
    sizes = dict(SMALL, seed=seed, nodes=1 + seed % 64, items=seed % 7, hold=seed % 65,
                 capacity=1 + seed % 64 * 5 % 64)
    return dict(sizes, labels=130) if seed % 3 == 0 else sizes


def has_options(labels=None, **numbers):
    """A job with these numbers, each link with these labels where they are named, and with garbage:
    frames, acknowledgements and openings that hold something, and losses."""
    def fault(text, _):
        job = json.loads(text)
        starts, scripts = job["starts"], job["scripts"]
        rates = {(script["loss"], script["repeat"]) for script in scripts}
        own = [link for link in job["links"] if link]
        seen = dict(
            nodes=len(job["tree"]), items=len(job["items"]), turns=job["turns"], hold=job["h"],
            schedule=len(job["schedule"]), capacity=job["capacity"],
            **dict(zip(("loss", "repeat"), min(rates))))
        its = {job["labels"]} | {link["labels"] for link in own}
        wrong = [
            (f"it has {seen}, and not {numbers}", seen != numbers or len(rates) > 1),
            (f"it has the labels {its}", its != {labels} if labels else len(its) == 1),
            ("no link has parameters of its own", not own),
            ("no link has the job's parameters", None not in job["links"]),
            ("all links have one capacity", len({link["capacity"] for link in own}) < 2),
            ("no start has a frame", not any(start["frames"] for start in starts)),
            ("no start has an acknowledgement", not any(start["acks"] for start in starts)),
            ("all senders have one label", len({start["send"] for start in starts}) < 2),
            ("all receivers have one label", len({start["recv"] for start in starts}) < 2),
            ("no node has an opening", not any(job["openings"])),
            ("two scripts have one seed", len({tuple(script["seed"]) for script in scripts})
             < len(scripts)),
            ("no script has an act", not all(script["length"] > 0 for script in scripts)),
            ("all steps are on one link", len({step[0] for step in job["schedule"]}) < 2),
            ("an event is never named", {"offer", *EVENTS, *LOSSES} - {"close"}
             - {step[1] for step in job["schedule"]}),
        ]
        return next((said for said, is_so in wrong if is_so), None)

    return fault


ROWS = [
    Row("writes the worst job of capacity one", worst(1, 4), out=WORST),
    Row("writes a worst job of the largest capacity", ["explain"], printed(worst(64, 1000)),
        out="stab link: accepted\n"),
    Row("its options have any order", ["worst", "--labels", "4", "--capacity=1"], out=WORST),
    *(Row(f"has what its options ask for: {what}", random(seed=seed, **options),
          out=has_options(**options))
      for what, options in [
          ("all but the labels", OTHERS), ("the labels too", dict(OTHERS, labels=90)),
          ("both rates are extreme", dict(OTHERS, loss=1000, repeat=0)),
          ("the fewest labels", dict(OTHERS, labels=12))]
      for seed in (3, 4)),
    *(Row(f"refuses no random job: seed {seed}", ["explain"],
          printed(random(**of_all_sizes(seed))), out="stab tree: accepted\n")
      for seed in range(200)),
    Row("draws the same job again", random(seed=7, **SMALL), out=same(random(seed=7, **SMALL))),
    Row("draws another job of another seed", random(seed=8, **SMALL),
        out=same(random(seed=7, **SMALL), is_same=False)),
    Row("draws no long line", random(seed=7, **SMALL), out=like(width=100)),
    Row("has these options where they are left out", ["random", "--seed", "7", "--labels=9"],
        out=same(random(seed=7, labels=9, **LEFT_OUT))),
]
