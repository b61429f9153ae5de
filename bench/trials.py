"""Commands that are run with a limit on memory and one on processor time: what they took and what they answered."""
import dataclasses
import os
import resource
import signal
import subprocess
import tempfile

DONE, OUT_OF_MEMORY, REFUSED = 0, 7, 8
# how the system ends a command that has used up its seconds
KILLED = (-signal.SIGXCPU, -signal.SIGKILL)


def of_length(made, length):
    """The longest text of a rule that has at most so many bytes."""
    high = 1
    while len(made(high)) <= length:
        high *= 2
    low = high // 2
    while low < high:
        middle = (low + high + 1) // 2
        low, high = (middle, high) if len(made(middle)) <= length else (low, middle - 1)
    return made(low)


@dataclasses.dataclass(frozen=True)
class Limits:
    """What a command may take: megabytes of address space, and seconds of a processor."""

    memory: int
    seconds: int

    def take(self):
        resource.setrlimit(resource.RLIMIT_AS, (self.memory << 20, self.memory << 20))
        resource.setrlimit(resource.RLIMIT_CPU, (self.seconds, self.seconds + 1))


class Trial:
    """A command that was run with its limits: its user and system seconds, its peak memory in bytes and what it answered."""

    def __init__(self, words, limits):
        with tempfile.TemporaryFile("w+") as said:
            child = subprocess.Popen(words, stdin=subprocess.DEVNULL, stdout=subprocess.DEVNULL, stderr=said, preexec_fn=limits.take)
            _, status, usage = os.wait4(child.pid, 0)
            child.returncode = os.waitstatus_to_exitcode(status)
            said.seek(0)
            line = said.read().strip()
        self.user, self.system, self.memory = usage.ru_utime, usage.ru_stime, usage.ru_maxrss * 1024
        self.is_limited = child.returncode in (OUT_OF_MEMORY, *KILLED)
        self.answer = answer_of(child.returncode, line, limits)

    def __str__(self):
        return f"{self.user:.2f} s and {self.system:.2f} s of the system, {self.memory / 1e6:.0f} MB, {self.answer}"


def answer_of(status, line, limits):
    if status in KILLED:
        return f"over {limits.seconds} s"
    if status == REFUSED and "\n" in line:
        return f"{line.count(chr(10)) + 1:,} lines"
    if status == REFUSED:
        return line.rpartition(":")[2].strip()
    return {DONE: "done", OUT_OF_MEMORY: "out of memory"}.get(status, f"status {status} {line}")


def trial_of(program, command, path, limits):
    """A command, which is a word or several, on the text of a path; an image goes beside it."""
    return Trial([program, *command.split(), path] + [path.with_suffix(".image")] * (command == "compile"), limits)
