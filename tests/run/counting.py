"""Counts answers that are compared, and prints the first that differ."""

SHOWN = 20


class Count:
    def __init__(self, ours, theirs):
        self.ours, self.theirs = ours, theirs
        self.all, self.differ = 0, 0

    def see(self, what, got, expected):
        self.all += 1
        if got != expected:
            self.differ += 1
            if self.differ < SHOWN:
                print(f"{what!r}\n  {self.ours}: {got!r}\n  {self.theirs}: {expected!r}")
