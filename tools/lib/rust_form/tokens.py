"""Rattle's text in pieces: comments, literals, words, marks. Nothing is known here of what they mean."""
import re

WORD = re.compile(r"[A-Za-z_][A-Za-z0-9_]*")
COMMENT = re.compile(r"//[^\n]*")
STRING = re.compile(r'"(?:[^"\\]|\\.)*"', re.S)
CHAR = re.compile(r"'(?:\\[^\n]*?|[^'\\\n])'")
LETTERS = frozenset("abcdefghijklmnopqrstuvwxyzABCDEFGHIJKLMNOPQRSTUVWXYZ0123456789_")


def quoted_end(text, at):
    """Past the comment, string or character that begins here; `at` itself if none does."""
    for form in (COMMENT, STRING, CHAR):
        found = form.match(text, at)
        if found:
            return found.end()
    return at


def word_at(text, at):
    """The whole word that begins here, or None."""
    found = WORD.match(text, at)
    is_whole = found and not (at and text[at - 1] in LETTERS)
    return found if is_whole else None


def skip_space(text, at):
    """Past space and comments."""
    while at < len(text):
        if text[at].isspace():
            at += 1
        elif text.startswith("//", at):
            at = COMMENT.match(text, at).end()
        else:
            break
    return at


def closed(text, at, opens="{", closes="}"):
    """Past the bracket that closes the first one at or after `at`. Between them only comments are passed over: clauses have no literals with brackets."""
    depth = 0
    while at < len(text):
        if text.startswith("//", at):
            at = COMMENT.match(text, at).end()
            continue
        depth += (text[at] == opens) - (text[at] == closes)
        if text[at] == closes and depth == 0:
            return at + 1
        at += 1
    raise ValueError(f"a {opens} is never closed")
