"""Trials: comparisons of several images at once with predictions."""

from collections import Counter
from multiprocessing import Pool
from typing import NamedTuple

from .image import Refused
from .tools import ToolFailed, remove_image

# The most problems printed of an image.
MOST_PRINTED = 20

# The most characters that a trial shows of a found or expected value.
MOST_SHOWN = 300


class Problems(list):
    """Differences from predictions, in words. They show at most `most_shown` characters of a value."""

    def __init__(self, most_shown=None):
        super().__init__()
        self.most_shown = most_shown

    def same(self, what, found, expected):
        """Adds a problem if the found and the expected value differ."""
        if found != expected:
            self.append(f"{what}: found {self.shown(found)}, expected {self.shown(expected)}")

    def shown(self, value):
        """A value in the form that problems show."""
        return repr(value)[: self.most_shown]

    def same_items(self, what, found, expected):
        """Compares two dictionaries. A problem names the first keys whose values differ."""
        apart = sorted(key for key in found.keys() | expected.keys() if found.get(key) != expected.get(key))
        self.same(f"{what} {apart[:5]}", [found.get(key) for key in apart], [expected.get(key) for key in apart])

    def print_first(self, before):
        """Prints the first problems, each after some words, and the number of the others."""
        for problem in self[:MOST_PRINTED]:
            print(f"{before}{problem}", flush=True)
        if len(self) > MOST_PRINTED:
            print(f"{before}and {len(self) - MOST_PRINTED} more", flush=True)


class Outcome(NamedTuple):
    """The result of a trial: the name of its image, its problems, and its counts."""

    name: str
    problems: Problems
    counts: Counter


class Trial:
    """A trial of an image of a kind at a path. `attempt` makes the image and tries all."""

    def __init__(self, kind, path, qmeta):
        self.kind, self.path, self.qmeta = kind, path, qmeta
        self.problems, self.counts = Problems(MOST_SHOWN), Counter()

    def attempt(self):
        """Makes the image, and adds to the problems and the counts."""
        raise NotImplementedError

    def outcome(self):
        """Runs the trial, removes its files, and returns its result."""
        try:
            self.attempt()
        except (ToolFailed, Refused) as failure:
            self.problems.append(str(failure))
        remove_image(self.path)
        return Outcome(f"{self.path.stem} ({self.kind})", self.problems, self.counts)


def run_trials(trials, jobs):
    """Runs trials, that many at once, and prints their problems. Returns all counts, and whether all is right."""
    counts, is_right = Counter(), True
    with Pool(jobs) as pool:
        for outcome in pool.imap(Trial.outcome, trials):
            outcome.problems.print_first(f"{outcome.name}: ")
            counts += outcome.counts
            is_right &= not outcome.problems
    return counts, is_right
