"""Values of a payload: numbers exactly as `decimal.Decimal`, texts, truth values and points."""
import json
import re
from decimal import Decimal
from typing import Any, NamedTuple, Tuple, Union


class Point(NamedTuple):
    """A point of a curve."""

    x: Decimal
    y: Decimal


Value = Union[Decimal, str, bool, Point]
_ON_A_LINE = re.compile(r'"(?:[^"\\]|\\.)*"|\([^)]*\)|[^ ]+')


def _pair(members: Any) -> Point:
    both = dict(members)
    return Point(both["x"], both["y"])


_DECODER = json.JSONDecoder(parse_float=Decimal, parse_int=Decimal, object_pairs_hook=_pair)


def of_json(text: str) -> Tuple[Value, ...]:
    """The values of a JSON array, as the library tells them."""
    return tuple(_DECODER.raw_decode(text)[0])


def unquoted(word: str) -> str:
    """A text as a reply tells it: in quotes, or bare."""
    return json.loads(word) if word.startswith('"') else word


def _of_word(word: str) -> Value:
    if word.startswith('"'):
        return unquoted(word)
    if word.startswith("("):
        x, y = word[1:-1].split(",")
        return Point(Decimal(x), Decimal(y))
    return word == "true" if word in ("true", "false") else Decimal(word)


def of_line(text: str) -> Tuple[Value, ...]:
    """The values at the end of a line of a reply."""
    return tuple(_of_word(word) for word in _ON_A_LINE.findall(text))
