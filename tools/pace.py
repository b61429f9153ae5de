"""How fast this machine proves, by the crates so far: what they took there, of what the table of docs/GATE.md says."""

# So many seconds of the table count as proved in just that time before anything is known: a short first crate says little.
FIRST = 30
# A crate counts half as much when so many seconds of the table are proved after it: other programs come and go on a machine.
HALF = 900
# A crate that is being proved has at least this part left.
LEAST_LEFT = 0.05


class Pace:
    def __init__(self):
        self.taken = self.expected = float(FIRST)

    def add(self, taken, expected):
        """Counts a crate that is proved: the seconds of clock, and those by the table."""
        fading = 0.5 ** (expected / HALF)
        self.taken = self.taken * fading + taken
        self.expected = self.expected * fading + expected

    def now(self, going):
        """Seconds of clock a second of the table. The crates that are being proved, each with both, count as soon as they are late."""
        late = [(taken, expected) for taken, expected in going if taken * self.expected > expected * self.taken]
        return (self.taken + sum(it[0] for it in late)) / (self.expected + sum(it[1] for it in late))

    def part_left(self, taken, expected, pace):
        """Which part is left of a crate that is being proved."""
        return max(1 - taken / (pace * expected), LEAST_LEFT)
