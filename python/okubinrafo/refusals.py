"""Refusals: their numbers, and the library's sentence for each."""

from .library import U8, U32, call

# As long as any sentence.
_SENTENCE_BYTES = 120


class Refused(Exception):
    """A refused call: the rules' number, its sentence, and the line of a file at fault, where there is one."""

    def __init__(self, number, line=None):
        self.number = number
        self.line = line
        self.sentence = sentence(number)
        place = "" if line is None else f", line {line}"
        super().__init__(f"refused ({number}{place}): {self.sentence}")


def ask(name, *arguments):
    """Calls the library; raises Refused."""
    number = call(name, *arguments)
    if number:
        raise Refused(number)


def sentence(number):
    """The sentence for a refusal's number, in English; empty for a number that is no refusal."""
    text, size = (U8 * _SENTENCE_BYTES)(), (U32 * 1)()
    call("sentence", number, text, size)
    return bytes(text[: size[0]]).decode("ascii")
