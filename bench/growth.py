"""Texts that are made by a seed (made_texts.py), each at two lengths: which take a command more time than their length says.

`bench/run texts --made SEED [--first N] [--count N] [--lengths N,N]` tries each with `check`; one that is accepted with `compile`, and another one with
`check --all --why`. It prints a row for each command whose time grows by more than MOST_GROWTH from one length to the next and is over twice that of
short statements, or is over MOST_TIMES that of them. A time is what a command takes of a processor; what seems to grow is measured again.
"""
import dataclasses
import pathlib
import tempfile

import made_texts
import texts
from trials import of_length, trial_of

COMMANDS = ["check", "compile", "check --all --why"]
ACCEPTED = ("done", "TooLarge")
# how often what seems to grow is measured
ROUNDS = 3
MOST_GROWTH, MOST_TIMES = 2.5, 10
# no time is shorter than this, in seconds
LEAST = 0.001


@dataclasses.dataclass(frozen=True)
class Growth:
    """What a command takes on a text at two lengths, and what it takes on short statements of these."""

    command: str
    seconds: tuple
    usual: tuple
    answer: str

    def factor(self):
        return self.seconds[1] / max(self.seconds[0], LEAST)

    def is_told(self):
        grows = self.factor() > MOST_GROWTH and self.seconds[1] > 2 * self.usual[1]
        return grows or self.seconds[1] > MOST_TIMES * self.usual[1]

    def with_less_of(self, seconds):
        return dataclasses.replace(self, seconds=tuple(min(pair) for pair in zip(self.seconds, seconds)))

    def __str__(self):
        first, second = self.seconds
        times = second / max(self.usual[1], LEAST)
        return f"{self.command} {first:.2f} and {second:.2f} s, x{self.factor():.1f}, {times:.0f} times short statements, {self.answer}"


class Trials:
    """Commands on a text at two lengths."""

    def __init__(self, program, limits, folder, lengths):
        self.program, self.limits, self.lengths = program, limits, lengths
        self.paths = [pathlib.Path(folder, f"text{it}.cyc") for it in lengths]
        self.write(lambda length: texts.text_of(texts.statements(), length))
        self.usual = {it: self.seconds(it, ROUNDS)[0] for it in COMMANDS}

    def write(self, made):
        for path, length in zip(self.paths, self.lengths):
            path.write_text(made(length), encoding="ascii")

    def seconds(self, command, rounds):
        """The least seconds at each length of some rounds, in which they take turns, and the last answer at the greater one."""
        rows = [[trial_of(self.program, command, path, self.limits) for path in self.paths] for _ in range(rounds)]
        return tuple(min(trial.user + trial.system for trial in column) for column in zip(*rows)), rows[-1][-1].answer

    def growth(self, command):
        """What a command takes on the text: measured again where it seems to take too much."""
        seconds, answer = self.seconds(command, 1)
        found = Growth(command, seconds, self.usual[command], answer)
        return found.with_less_of(self.seconds(command, ROUNDS - 1)[0]) if found.is_told() else found

    def growths(self):
        check = self.growth("check")
        return [check, self.growth("compile" if check.answer in ACCEPTED else "check --all --why")]


def try_made(program, limits, seed, numbers, lengths):
    """Prints the texts of a seed on which a command takes more than their length says, and how many were tried."""
    answers, told = {}, 0
    with tempfile.TemporaryDirectory() as folder:
        trials = Trials(program, limits, folder, lengths[:2])
        print(f"short statements: {'; '.join(f'{it} {one:.3f} and {two:.3f} s' for it, (one, two) in trials.usual.items())}", flush=True)
        for number in numbers:
            recipe = made_texts.recipe(seed, number)
            trials.write(lambda length, made=recipe.made: of_length(made, length))
            found = trials.growths()
            answers[found[0].answer] = answers.get(found[0].answer, 0) + 1
            for growth in found:
                if growth.is_told():
                    told += 1
                    print(f"{number}: {growth}: {recipe.name}", flush=True)
    print(f"{len(numbers)} texts, {told} rows; check: {', '.join(f'{count} {it}' for it, count in sorted(answers.items()))}")
