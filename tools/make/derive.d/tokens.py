"""The tokens of a source file, each with its line: comments and literals are one token each."""
import re
from dataclasses import dataclass

TOKEN = re.compile(
    r"""(?P<line>//[^\n]*)
      | (?P<block>/\*.*?\*/)
      | (?P<raw>b?r(?P<hashes>\#*)".*?"(?P=hashes))
      | (?P<string>b?"(?:\\.|[^"\\])*")
      | (?P<char>b?'(?:\\.[^']*|[^'\\\n])')
      | (?P<lifetime>'[^\W\d]\w*)
      | (?P<word>\w+)
      | (?P<sign>::|->|=>|\S)""",
    re.S | re.X,
)


class Refused(Exception):
    """What cannot be derived, with the line of the file that says so."""

    def __init__(self, why, line=None):
        super().__init__(why)
        self.why, self.line = why, line


@dataclass(frozen=True)
class Token:
    kind: str
    text: str
    line: int


END = Token("end", "", 0)
CLOSES = {"(": ")", "[": "]"}


def tokens_of(text):
    """The tokens of a text, in order."""
    found, line, at = [], 1, 0
    for match in TOKEN.finditer(text):
        line += text.count("\n", at, match.start())
        at = match.start()
        kind = "comment" if match.lastgroup in ("line", "block") else match.lastgroup
        found.append(Token("raw" if kind == "hashes" else kind, match[0], line))
    return found


class Stream:
    """Tokens that are taken one after another."""

    def __init__(self, tokens):
        self.tokens, self.at = tokens, 0

    def peek(self):
        return self.tokens[self.at] if self.at < len(self.tokens) else END

    def take(self):
        token = self.peek()
        self.at += token is not END
        return token

    def takes(self, text):
        """Takes the next token if it is this one, and returns whether it was."""
        found = self.peek().text == text
        self.at += found
        return found

    def last(self):
        """The last token that was taken."""
        return self.tokens[self.at - 1] if self.at else END

    def skip_brackets(self):
        """Takes what is between the next bracket and the one that closes it, with both."""
        opens, depth = self.peek().text, 0
        while (token := self.take()) is not END:
            depth += token.text == opens
            depth -= token.text == CLOSES[opens]
            if depth == 0:
                return
