"""run.py: all tests of this folder, a line for each. Last line: 'N passed, N failed'. DISK1541 names the program that the tests compare with."""
import sys
import unittest
from pathlib import Path


class Result(unittest.TestResult):
    """Says what comes of each test."""

    def __init__(self) -> None:
        super().__init__()
        self.passed = self.failed = 0
        self._has_failed_part = False

    def startTest(self, test: unittest.TestCase) -> None:
        super().startTest(test)
        self._has_failed_part = False

    def addSuccess(self, test: unittest.TestCase) -> None:
        if not self._has_failed_part:
            self.passed += 1
            print(f"ok    {test.id()}", flush=True)

    def addSkip(self, test: unittest.TestCase, reason: str) -> None:
        print(f"skip  {test.id()}: {reason}", flush=True)

    def addFailure(self, test, error) -> None:
        self.failed += 1
        print(f"WRONG {test.id()}\n{self._exc_info_to_string(error, test)}", flush=True)

    addError = addFailure

    def addSubTest(self, test, part, error) -> None:
        if error is not None:
            self._has_failed_part = True
            self.addFailure(part, error)


def main() -> int:
    result = Result()
    unittest.defaultTestLoader.discover(str(Path(__file__).parent)).run(result)
    print(f"{result.passed} passed, {result.failed} failed")
    return int(result.failed > 0 or result.passed == 0)


if __name__ == "__main__":
    sys.exit(main())
