"""Damaged texts: with a byte or a line changed."""

import re


def damaged_bytes(text, step=1, first=0):
    """Yields texts with one byte changed: one of its bits flipped, replaced by a line feed, a blank, a digit, a letter
    or a parenthesis, doubled, removed, or swapped with the next. Of all these texts it yields every `step`-th, from
    number `first` on."""
    ways = [lambda t, i, bit=bit: t[:i] + bytes([t[i] ^ 1 << bit]) + t[i + 1:] for bit in range(8)]
    ways += [lambda t, i, by=by: t[:i] + by + t[i + 1:] for by in (b"\n", b" ", b"9", b"A", b")")]
    ways += [lambda t, i: t[:i] + t[i:i + 1] + t[i:], lambda t, i: t[:i] + t[i + 1:], lambda t, i: t[:i] + t[i + 1:i + 2] + t[i:i + 1] + t[i + 2:]]
    for number in range(first, len(text) * len(ways), step):
        yield ways[number % len(ways)](text, number // len(ways))


def damaged_lines(text, step=1, first=0):
    """Yields texts with one line removed, doubled, swapped with the next, cut in its middle, ended by a carriage return
    too, or with one of its digits changed. Of all these texts it yields every `step`-th, from number `first` on."""
    lines = text.split(b"\n")
    number = 0
    for place, line in enumerate(lines):
        next_one = lines[place + 1:place + 2]
        changed = [[], [line, line], [*next_one, line], [line[:len(line) // 2]], [line + b"\r"]]
        changed += [[line[:it.start()] + b"%d" % ((int(it[0]) + by) % 10) + line[it.end():]] for it in re.finditer(rb"[0-9]", line) for by in (1, 9)]
        for new in changed:
            if number >= first and (number - first) % step == 0:
                yield b"\n".join(lines[:place] + new + lines[place + (1 + len(next_one) if new == [*next_one, line] else 1):])
            number += 1


def tokens(text):
    """Returns the tokens of a text of lists, in lower case; None if it has a byte that no token can have."""
    bare = re.sub(rb";[^\n]*", b"", text)
    if re.search(rb"[^\t\n\r -~]", bare):
        return None
    return [it.lower() for it in re.findall(rb"[()]|[^\s()]+", bare)]
