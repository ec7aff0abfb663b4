"""What holds and what doesn't, counted: a line for each case that doesn't."""


class Cases:
    def __init__(self):
        self.passed = self.failed = 0

    def check(self, name, holds, what=""):
        if holds:
            self.passed += 1
        else:
            self.failed += 1
            print(f"{name}: {what}")

    def same(self, name, got, wanted):
        self.check(name, got == wanted, f"wanted {wanted!r}, got {got!r}")
