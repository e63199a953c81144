"""Reports of the player, and the table of subjects by drive."""
import dataclasses

# What the letters of a report mean.
SAME, WORDS, DIFFERENT = "S", "T", "X"


@dataclasses.dataclass
class Report:
    """A report: the sum of the suite, the first status of the drive, and for each number of a case its letter and its first difference."""

    suite: str
    drive: str
    results: dict
    places: dict


class Unreadable(Exception):
    """A file that isn't a report, or one of another suite."""


def read(data):
    """The report in these bytes, as the player writes it, or with line feeds."""
    lines = data.decode("ascii", "replace").replace("\r\n", "\r").replace("\n", "\r").split("\r")
    if len(lines) < 2 or not lines[0].startswith("YELLOWADZE SUITE "):
        raise Unreadable("it isn't a report of the suite")
    rows = [line.split() for line in lines[2:] if line.strip()]
    results = {int(row[0]): row[1] for row in rows}
    return Report(lines[0].split()[-1].lower(), lines[1], results, {int(row[0]): row[2:] for row in rows if len(row) > 2})


def merged(reports):
    """Several reports of one drive as one."""
    first = reports[0]
    if any(it.suite != first.suite for it in reports):
        raise Unreadable("the reports are of different suites")
    results, places = {}, {}
    for it in reports:
        results |= it.results
        places |= it.places
    return Report(first.suite, first.drive, results, places)


def cell(report, plans):
    """How many of these cases are the same, of those that were played."""
    letters = [report.results[it.number] for it in plans if it.number in report.results]
    if not letters:
        return "-"
    same, words = letters.count(SAME), letters.count(WORDS)
    return f"{same} of {len(letters)}" + (f", {words} other words" if words else "")


def difference(report, it):
    """A line about a case that differs."""
    words = report.places.get(it.number)
    where = " Request {}, byte {}: expected {}, received {}.".format(*words) if words and len(words) == 4 else ""
    verdict = "other words" if report.results[it.number] == WORDS else "wrong" if it.class_letter == "M" else "different"
    return f"- {verdict}: {it.case.name()} ({it.class_of_case.reference}).{where}"


def table(plans, reports):
    """The table, with a row for each subject and a column for each drive, and then the differences of each drive."""
    played = [it for it in plans if it.requests]
    names = list(reports)
    yield "| subject | cases | " + " | ".join(names) + " |"
    yield "|---|---|" + "---|" * len(names)
    for subject in sorted({it.case.file for it in played}):
        of_subject = [it for it in played if it.case.file == subject]
        yield f"| {subject} | {len(of_subject)} | " + " | ".join(cell(reports[name], of_subject) for name in names) + " |"
    yield f"| all | {len(played)} | " + " | ".join(cell(reports[name], played) for name in names) + " |"
    for name in names:
        differing = [it for it in played if reports[name].results.get(it.number, SAME) != SAME]
        if differing:
            yield ""
            yield f"{name}:"
            yield ""
            yield from (difference(reports[name], it) for it in differing)
