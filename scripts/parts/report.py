"""How the parts count and tell: each check passes, fails or is skipped."""
import threading


class Report:
    """Counts the checks of a part, and prints each one that fails or is skipped. Threads may share it."""

    def __init__(self, part, verbose=False):
        self.part, self.verbose = part, verbose
        self.counts = {"passed": 0, "failed": 0, "skipped": 0}
        self.lock = threading.Lock()

    def passed(self, name, count=1):
        """Counts a check that passed, or so many of another program."""
        self.tell("passed", f"{name}: passed" if self.verbose else "", count)

    def failed(self, name, why, count=1):
        """Counts a check that failed, and prints why."""
        self.tell("failed", f"{name}: {why}", count)

    def skipped(self, name, why):
        """Counts a check that this machine can't make, and prints what it needs."""
        self.tell("skipped", f"{name}: skipped: {why}", 1)

    def check(self, name, right, why):
        """Counts a check that passed if `right`, and prints `why` otherwise."""
        if right:
            self.passed(name)
        else:
            self.failed(name, why)
        return bool(right)

    def note(self, text):
        """Prints a line that counts nothing."""
        self.tell("passed", text, 0)

    def add(self, other):
        """Adds the counts of another report."""
        for kind, count in other.counts.items():
            self.tell(kind, "", count)

    def tell(self, kind, text, count):
        with self.lock:
            self.counts[kind] += count
            if text:
                print(f"{self.part}: {text}", flush=True)

    def total(self):
        """The counts as a line ends with them."""
        passed, failed, skipped = self.counts.values()
        return f"{passed} passed, {failed} failed" + f", {skipped} skipped" * bool(skipped)
