"""The tokens of schemas and queries: docs/FORMATS.md, "Tokens", after SQL-92, 5.2 and 5.3.

A Reader hands them out one by one, and meets the refusals that both grammars share.
"""

import re
from dataclasses import dataclass

RESERVED = set(
    "and as asc avg between bigint by char coalesce count create cross date day decimal desc distinct from group having in inner int integer "
    "interval is join key max min not null on or order primary select sum table varchar where".split()
)
GREATEST = (1 << 127) - 1
WORD = re.compile(rb"[A-Za-z][A-Za-z0-9_]*")
NUMBER = re.compile(rb"([0-9]+)(?:\.([0-9]+))?")
BLANKS = re.compile(rb"(?:[ \t\r\n]|--[^\n]*)*")
SIGN = re.compile(rb"<>|<=|>=|[(),.;*+\-/=<>]")
TEXT = re.compile(rb"'((?:[^']|'')*)'(?!')")
LONGEST_WORD = 64
MOST_DIGITS = 18
MOST_LEVELS = 64


class Refuse(Exception):
    """A text is refused at a byte."""

    def __init__(self, at, kind):
        super().__init__(at, kind)
        self.at, self.kind = at, kind


@dataclass
class Token:
    """A token at its first byte: a word, an integer, a decimal (its units and its scale), a text, a sign, the end, or what is none, with its kind."""

    at: int
    form: str
    value: object = None


def first_bad_byte(text):
    """The first byte that is part of no character in UTF-8; None where there is none."""
    try:
        text.decode("utf-8")
    except UnicodeDecodeError as error:
        return error.start
    return None


def number_token(at, found):
    whole, fraction = found.group(1), found.group(2)
    units = int(whole + (fraction or b""))
    if units > GREATEST or len(fraction or b"") > MOST_DIGITS:
        return Token(at, "bad", "NumberTooWide")
    return Token(at, "integer", units) if fraction is None else Token(at, "decimal", (units, len(fraction)))


def token_at(text, at):
    """The longest token that stands at a byte, and where it ends."""
    found = WORD.match(text, at)
    if found and len(found.group()) <= LONGEST_WORD:
        return Token(at, "word", found.group().decode().lower()), found.end()
    number = NUMBER.match(text, at)
    if number:
        return number_token(at, number), number.end()
    literal = TEXT.match(text, at)
    if literal:
        return Token(at, "text", literal.group(1).replace(b"''", b"'")), literal.end()
    sign = SIGN.match(text, at)
    if sign:
        return Token(at, "sign", sign.group().decode()), sign.end()
    return Token(at, "bad", "BadToken"), at


def tokens_of(text):
    """All tokens up to the first that is none, or to the end, which stands as the last one."""
    found, at = [], 0
    while True:
        at = BLANKS.match(text, at).end()
        if at == len(text):
            return [*found, Token(at, "end")]
        token, at = token_at(text, at)
        found.append(token)
        if token.form == "bad":
            return found


class Reader:
    """Tokens taken from the front. A text of more tokens than `most` is refused as TooLong at the first that is too many."""

    def __init__(self, text, most):
        at = first_bad_byte(text)
        if at is not None:
            raise Refuse(at, "NotText")
        self.tokens, self.place, self.most, self.level = tokens_of(text), 0, most, 0

    def look(self):
        token = self.tokens[self.place]
        if token.form == "bad":
            raise Refuse(token.at, token.value)
        if self.place >= self.most and token.form != "end":
            raise Refuse(token.at, "TooLong")
        return token

    def take(self):
        token = self.look()
        self.place += 1
        return token

    def unexpected(self):
        raise Refuse(self.look().at, "Unexpected")

    def stands(self, form, *values):
        token = self.look()
        return token.form == form and (not values or token.value in values)

    def sign(self, *signs):
        """The sign that has to stand here."""
        return self.take() if self.stands("sign", *signs) else self.unexpected()

    def word(self, *words):
        """The reserved word that has to stand here."""
        return self.take() if self.stands("word", *words) else self.unexpected()

    def try_sign(self, *signs):
        return self.take() if self.stands("sign", *signs) else None

    def try_word(self, *words):
        return self.take() if self.stands("word", *words) else None

    def is_name(self):
        return self.look().form == "word" and self.look().value not in RESERVED

    def name(self):
        return self.take() if self.is_name() else self.unexpected()

    def integer(self):
        return self.take() if self.stands("integer") else self.unexpected()

    def text(self):
        return self.take() if self.stands("text") else self.unexpected()

    def end(self):
        return self.look() if self.stands("end") else self.unexpected()

    def interval_follows(self):
        """Whether a sign stands here, and behind it the word INTERVAL. The token behind the sign is not met by this look."""
        return self.stands("sign", "+", "-") and self.tokens[self.place + 1] == Token(self.tokens[self.place + 1].at, "word", "interval")

    def open(self, at):
        """Opens a level at a byte: a parenthesis, a NOT or a sign that still encloses what follows."""
        if self.level == MOST_LEVELS:
            raise Refuse(at, "TooDeep")
        self.level += 1

    def close(self, levels=1):
        self.level -= levels
