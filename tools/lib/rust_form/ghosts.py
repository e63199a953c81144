"""Which parts of Rattle's text are for its prover alone: clauses, ghost items, models, hints for tactics."""
import re
from typing import NamedTuple

from rust_form.tokens import COMMENT, closed, quoted_end, skip_space, word_at

GHOST = re.compile(r"(?:pub(?:\([a-z]+\))?\s+)?ghost\b")
GHOST_USE = re.compile(r"(?:pub(?:\([a-z]+\))?\s+)?ghost\s+use\b")
MODEL = re.compile(r"impl(?:<[^{]*?>)?\s+Model\s+for\s+[^{]*")
TACTIC = re.compile(r"#!?\[tactic\b")
# Documentation, comments and attributes right above an item.
ABOVE = re.compile(r"(?:^[ \t]*(?://[^\n]*|#\[[^\n]*\])\n)+[ \t]*\Z", re.M)


class Ghost(NamedTuple):
    """A part for the prover; `above` is where the documentation of a ghost item begins."""

    start: int
    end: int
    above: int


def item_end(text, at):
    """Past a ghost item or field: after its `;` or `,`, or before the bracket that closes what it lies in."""
    depth = 0
    while True:
        if text.startswith("//", at):
            at = COMMENT.match(text, at).end()
            continue
        letter = text[at]
        if letter in "{([":
            depth += 1
        elif letter in "})]":
            if depth == 0:
                return at
            depth -= 1
        elif letter in ";," and depth == 0:
            return at + 1
        at += 1


def clause_end(text, after):
    """Past the block of a clause whose word ends at `after`; None if this is no clause."""
    at = skip_space(text, after)
    if text.startswith("*", at):
        at = skip_space(text, at + 1)
    name = word_at(text, at)
    if name:
        at = skip_space(text, name.end())
    return closed(text, at) if text.startswith("{", at) else None


def above_of(text, start):
    found = ABOVE.search(text, 0, start)
    return found.start() if found else start


def ghost_at(text, at):
    """The part for the prover that begins here, or None."""
    if TACTIC.match(text, at):
        return Ghost(at, closed(text, at, "[", "]"), at)
    word = word_at(text, at)
    if not word:
        return None
    ghost = GHOST.match(text, at)
    if ghost:
        is_import = GHOST_USE.match(text, at)
        return Ghost(at, item_end(text, ghost.end()), at if is_import else above_of(text, at))
    if word[0] in ("requires", "ensures"):
        end = clause_end(text, word.end())
        return Ghost(at, end, at) if end else None
    model = MODEL.match(text, at) if word[0] == "impl" else None
    return Ghost(at, closed(text, model.end()), above_of(text, at)) if model else None


def ghosts_of(text):
    """All parts for the prover, in order."""
    found, at = [], 0
    while at < len(text):
        ghost = ghost_at(text, at)
        if ghost:
            found.append(ghost)
            at = ghost.end
            continue
        word = word_at(text, at)
        at = word.end() if word else max(quoted_end(text, at), at + 1)
    return found


def without_ghosts(text):
    """The text without them, and without the documentation of items that are gone."""
    kept, at = [], 0
    for ghost in ghosts_of(text):
        kept.append(text[at : max(at, ghost.above)])
        at = ghost.end
    return "".join(kept) + text[at:]


def blanked(text):
    """The text with spaces in their place: each other token stays in its line and column. Hints for tactics stay, as other attributes do."""
    kept, at = [], 0
    for ghost in ghosts_of(text):
        if text.startswith("#", ghost.start):
            continue
        start = max(at, ghost.above)
        kept.append(text[at:start])
        kept.append("".join(it if it == "\n" else " " for it in text[start : ghost.end]))
        at = ghost.end
    return "".join(kept) + text[at:]
