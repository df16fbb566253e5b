"""Cases of a demo: functions that raise Failed, each printed with its outcome, and counted."""

import time
from collections.abc import Callable

Case = Callable[..., None]


class Failed(Exception):
    """What isn't as it should be."""


def wants(holds: object, why: object) -> None:
    """Raises Failed unless it holds."""
    if not holds:
        raise Failed(str(why))


def until(holds: Callable[[], object], seconds: float, why: str) -> None:
    """Waits until it holds. Raises Failed where it takes longer."""
    end = time.monotonic() + seconds
    while not holds():
        wants(time.monotonic() < end, f"{why}: not after {seconds} s")
        time.sleep(0.05)


class Cases:
    """Runs cases one by one: a line for each, by the first line of its docstring."""

    def __init__(self) -> None:
        self.passed = self.failed = 0

    def run(self, case: Case, *words: object) -> bool:
        """Whether the case passed."""
        title = (case.__doc__ or case.__name__).split("\n")[0].rstrip(".")
        try:
            case(*words)
        except Exception as error:  # the other cases are tried all the same
            self.failed += 1
            print(f"FAILED {title}\n    {type(error).__name__}: {error}", flush=True)
            return False
        self.passed += 1
        print(f"passed {title}", flush=True)
        return True

    def end(self) -> int:
        """Prints the counts. Returns the exit status."""
        print(f"{self.passed} passed, {self.failed} failed")
        return int(self.failed > 0)
