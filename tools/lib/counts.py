"""Counts what passes and what fails."""
from common import Stop


class Counts:
    """Counts what passes and what fails, and prints a line for each."""

    def __init__(self):
        self.passed = self.failed = 0

    def check(self, name, do, *words):
        """A check says what it saw, or raises Stop."""
        try:
            line = f"{name}: {do(*words)}"
            self.passed += 1
        except Stop as stop:
            line = f"FAILED {name}: {stop}"
            self.failed += 1
        print(line, flush=True)
