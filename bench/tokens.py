#!/usr/bin/env python3
"""An independent judge of the token lists of the four formats, plain, that shares nothing with the program.

    tokens.py FORMAT < TEXT   prints the tokens of the text, or the one fault that it has

FORMAT is liberty, verilog, spef or sdc. Each token is a line `KIND LINE FROM TO`: the line on which its
first byte stands, and the offsets of its first byte and of the byte after its last. A fault is the line
`Byte LINE`, of the first byte that may not stand where it stands, or else `Unended LINE`, of a text that
ends within a comment, a string, an attribute or a braced word; LINE is then the text's last.
"""

import re
import sys
from collections import namedtuple

Piece = namedtuple("Piece", "kind line start end is_open")

STRAY = re.compile(rb"[^!-~ \t\r\n]")
TOKENS = ("Word", "Text", "Mark", "Escaped", "Break")
MAY_HOLD_ANY_BYTE = ("comment", "Text")

def enclosed(opening, inside, closing):
    """What stands between two marks, with them; without the second mark it is open at the text's end."""
    return opening + inside + rb"(?:" + closing + rb"|(?P<open>\Z))"

# A format is a list of rules, each a kind of piece and the bytes of such a piece. Where a piece has ended
# the first rule that fits gives the next one. `.` is any byte, `[!-~]` a visible one, and `(?!..)` says
# what the next byte must not begin.

WHITE = ("white", rb"[ \t\r\n]")
JOINED = ("white", rb"\\\n")
LINE_COMMENT = ("comment", rb"//[^\n]*")
COMMENT = ("comment", enclosed(rb"/\*", rb".*?", rb"\*/"))
STRING = ("Text", enclosed(rb'"', rb".*?", rb'"'))
NOTHING_ELSE = ("stray", rb".")

LIBERTY = [
    WHITE,
    JOINED,
    COMMENT,
    ("Text", enclosed(rb'"', rb"(?:\\.|.)*?", rb'"')),
    ("Mark", rb"[(){}:;,]"),
    ("Word", rb'(?:(?!/\*|\\\n|[(){}:;,"])[!-~])+'),
    NOTHING_ELSE,
]

VERILOG = [
    WHITE,
    LINE_COMMENT,
    COMMENT,
    ("attribute", enclosed(rb"\(\*", rb".*?", rb"\*\)")),
    ("directive", rb"(?m:^)`[^\n]*"),
    ("Word", rb"[A-Za-z_][A-Za-z0-9_$]*"),
    ("Word", rb"1'[bBhHdDoO][01]"),
    ("Word", rb"[0-9]+"),
    ("Escaped", rb"\\[!-~]*"),
    ("Mark", rb"[!-~]"),
    NOTHING_ELSE,
]

SPEF = [
    WHITE,
    LINE_COMMENT,
    COMMENT,
    STRING,
    ("Word", rb"[!-~]+"),
    NOTHING_ELSE,
]

# In a bare word a `[` and the next `]` belong together where only visible bytes other than `;` are between.
SDC = [
    JOINED,
    ("Break", rb"[\n;]"),
    WHITE,
    STRING,
    ("Escaped", enclosed(rb"\{", rb".*?", rb"\}")),
    ("Mark", rb"[][]"),
    ("Word", rb"(?:\[(?:(?![];])[!-~])*\]|(?!\\\n|[];])[!-~])+"),
    NOTHING_ELSE,
]
SDC_COMMENT = ("comment", rb"#(?:\\\n|[^\n])*")

def compiled(rules):
    """The rules with their patterns ready, in which `.` also stands for a newline."""
    return [(kind, re.compile(pattern, re.DOTALL)) for kind, pattern in rules]

# Of each format the rules where a command begins, and those elsewhere. Only SDC has commands.
FORMATS = {
    "liberty": (compiled(LIBERTY), compiled(LIBERTY)),
    "verilog": (compiled(VERILOG), compiled(VERILOG)),
    "spef": (compiled(SPEF), compiled(SPEF)),
    "sdc": (compiled([SDC_COMMENT] + SDC), compiled(SDC)),
}

def pieces(text, text_format):
    """All pieces of a text, tokens and what stands between them, which together are the whole text."""
    at_start, elsewhere = FORMATS[text_format]
    rules, line, place = at_start, 1, 0
    while place < len(text):
        fits = ((kind, pattern.match(text, place)) for kind, pattern in rules)
        kind, match = next((kind, match) for kind, match in fits if match)
        yield Piece(kind, line, place, match.end(), match.lastgroup == "open")
        line += match.group().count(b"\n")
        place = match.end()
        if kind in TOKENS:
            rules = at_start if kind == "Break" else elsewhere

def line_at(text, place):
    """The line on which a place of a text is."""
    return 1 + text.count(b"\n", 0, place)

def fault(text, text_format):
    """The fault of a text, or None: a byte that may not stand comes before an open end."""
    is_open = False
    for piece in pieces(text, text_format):
        stray = STRAY.search(text, piece.start, piece.end)
        if stray and piece.kind not in MAY_HOLD_ANY_BYTE:
            return f"Byte {line_at(text, stray.start())}"
        is_open = piece.is_open
    return f"Unended {line_at(text, len(text))}" if is_open else None

def listing(text, text_format):
    """The lines that are printed for a text."""
    found = fault(text, text_format)
    if found:
        return [found]
    tokens = (piece for piece in pieces(text, text_format) if piece.kind in TOKENS)
    return [f"{token.kind} {token.line} {token.start} {token.end}" for token in tokens]

def main(words):
    """Runs the command that the words give, and returns its status."""
    if len(words) != 1 or words[0] not in FORMATS:
        print(__doc__.strip(), file=sys.stderr)
        return 2
    for line in listing(sys.stdin.buffer.read(), words[0]):
        print(line)
    return 0

if __name__ == "__main__":
    sys.exit(main(sys.argv[1:]))
