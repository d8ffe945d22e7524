"""Shortens an input that fails a test, for whoever has to read it."""


def shortest(fails, lines):
    """The fewest of these lines found with which the test still fails: pieces, each half as long as
    those before, are left out as long as it does."""
    size = len(lines) // 2
    while size:
        at = 0
        while at < len(lines):
            rest = lines[:at] + lines[at + size :]
            if fails(rest):
                lines = rest
            else:
                at += size
        size //= 2
    return lines
