"""What was compared, and how often it held."""
from collections import Counter


class Tally:
    def __init__(self):
        self.passed = Counter()
        self.failed = Counter()
        # of each check the first thing that failed
        self.first = {}

    def check(self, name, met, *seen):
        if met:
            self.passed[name] += 1
        else:
            self.failed[name] += 1
            self.first.setdefault(name, seen)

    def add(self, other):
        self.passed.update(other.passed)
        self.failed.update(other.failed)
        for name, seen in other.first.items():
            self.first.setdefault(name, seen)
