"""Why a call is refused."""
from typing import Optional

NAMES = dict(
    enumerate(
        (
            "LongLine BadLine BadMoment BadId BadNumber BadJson NotObject WrongKind IdMismatch Missing WrongType BadText BadDateTime "
            "BadDuration NegativeDuration BadPriority BadShape TooMany NoStart AfterEndless TimeRange Exists NotThere NoProgram NoVen "
            "InUse Full BadWindow UnknownResource"
        ).split(),
        1,
    )
)
NAMES.update({98: "NoRuntime", 99: "NoMemory", 100: "Closed", 101: "Open", 102: "BadTie", 103: "BadKind"})


class Refusal(Exception):
    """Why a call is refused, by its number and name (docs/SCRIPT.md); nothing has changed. `load` adds the object's kind and id."""

    def __init__(self, number: int, kind: Optional[str] = None, id: Optional[str] = None):
        self.number = number
        self.name = NAMES.get(number, "Unknown")
        self.kind = kind
        self.id = id
        super().__init__(number, kind, id)

    def __str__(self) -> str:
        about = f": {self.kind} {self.id}" if self.kind else ""
        return f"{self.number} {self.name}{about}"


def done(code: int) -> None:
    if code:
        raise Refusal(code)
