"""Scripts that look random, over a few objects of each kind."""
import random


class Scripts:
    """The scripts of a seed."""

    GROUPS = ["A", "B", "C"]
    TYPES = ["PRICE", "PRICE", "GHG", "X_LOAD", "SIMPLE"]

    def __init__(self, seed):
        self.random = random.Random(seed)

    def body(self, kind, several):
        pick = self.random.choice
        targets = pick(["", f',"targets":[{{"type":"GROUP","values":["{pick(self.GROUPS)}"]}}]'])
        if kind == "program":
            return f'{{"programName":"P"{targets}}}'
        if kind == "ven":
            return f'{{"venName":"V"{targets}}}'
        if kind == "resource":
            return f'{{"resourceName":"R","venID":"v{self.random.randrange(several)}"{targets}}}'
        intervals = ",".join(self.interval(place) for place in range(self.random.randrange(1, 5)))
        return f'{{"programID":"p{self.random.randrange(3)}","priority":{pick(["null", 0, 1, 2])}{targets},"intervals":[{intervals}]}}'

    def interval(self, place):
        hour, length = self.random.randrange(24), self.random.choice(["PT1H", "PT90M", "PT6H", "P1D"])
        return (
            f'{{"id":{place},"intervalPeriod":{{"start":"2024-01-0{self.random.randrange(1, 9)}T{hour:02}:00:00Z","duration":"{length}"}},'
            f'"payloads":[{{"type":"{self.random.choice(self.TYPES)}","values":[{self.random.randrange(100)}]}}]}}'
        )

    def line(self, several):
        pick, turn = self.random.choice, self.random.random()
        if turn < 0.6:
            kind = pick(["event"] * 6 + ["resource", "resource", "ven", "program"])
            name = f"{kind[0]}{self.random.randrange(several if kind != 'program' else 3)}"
            verb = pick(["create", "create", "create", "change", "change", "delete"])
            body = "" if verb == "delete" else f" {self.body(kind, several)}"
            return f"edit 2024-01-01T00:00:00Z {verb} {kind} {name}{body}"
        if turn < 0.7:
            return pick(["publish"] * 9 + ["condense"])
        moment = f"2024-01-0{self.random.randrange(1, 9)}T{self.random.randrange(24):02}:30:00Z"
        resource_id, payload_type = f"r{self.random.randrange(several)}", pick(self.TYPES)
        return pick(
            [
                f"at {resource_id} {payload_type} {moment}",
                f"list {resource_id} {payload_type} {moment} 2024-01-09T00:00:00Z",
                f"roll {payload_type} {moment}",
                f"types {resource_id}",
            ]
        )

    def script(self, count, several):
        return "".join(self.line(several) + "\n" for _ in range(count)).encode()

    def mutated(self, text):
        """The text with wrong bytes at some places."""
        pick = self.random
        text = bytearray(text)
        for _ in range(pick.randrange(1, 8)):
            at = pick.randrange(len(text))
            kind = pick.randrange(4)
            if kind == 0:
                text[at] = pick.randrange(256)
            elif kind == 1:
                del text[at : at + pick.randrange(1, 20)]
            elif kind == 2:
                text[at:at] = bytes(pick.randrange(256) for _ in range(pick.randrange(1, 9)))
            else:
                text[at:at] = text[at : at + pick.randrange(1, 200)]
        return bytes(text)
