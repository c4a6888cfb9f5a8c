"""Random scripts of `drill --clear`."""
import re

from tests import standard
from tests.format.generated import Generated
from tests.standard import CHUNKS, TAG

NO_SCRIPT_LINE = (
    "piece {n} 1",
    "piece 0 {m}",
    "flip {n}",
    "end ",
    "restart 01",
    "restart 18446744073709551616",
    "piece 0",
    "",
    " end",
    "piece  0 0",
)
NO_SCRIPT_LINE += ("piece 18446744073709551615 1", "restart -1", "end\r", "piece 0 00")


def is_script_line(line, size):
    """Whether this is a line of a script over so many bytes."""
    found = re.fullmatch(
        r"(?:(piece) (0|[1-9]\d*) (0|[1-9]\d*)|(flip|restart) (0|[1-9]\d*)|end)", line
    )
    if not found or line.endswith("\r"):
        return False
    if found[1]:
        return int(found[2]) + int(found[3]) <= size
    return int(found[5] or 0) < (size if found[4] == "flip" else 2**64)


def answers(box, payload, lines):
    """What a drill prints for each line: the deliveries since the last start that was accepted decide."""
    base, first, data, has_ended, is_late = b"", 0, b"", False, False
    for number, line in enumerate(lines, 1):
        verb, *numbers = line.split()
        numbers, is_refused = [*map(int, numbers)], False
        if verb == "piece":
            piece = bytes(payload[numbers[0] : sum(numbers)])
            data, is_late = (data, is_late or bool(piece)) if has_ended else (data + piece, is_late)
        elif verb == "flip":
            payload[numbers[0]] ^= 255
        elif verb == "end":
            has_ended = True
        else:
            held = base + standard.outcome(box, first, data, has_ended, is_late).text
            is_refused = numbers[0] >= CHUNKS or len(held) < numbers[0] * box.size
            if not is_refused:
                base, first, data, has_ended, is_late = (
                    held[: numbers[0] * box.size],
                    numbers[0],
                    b"",
                    False,
                    False,
                )
        found = standard.outcome(box, first, data, has_ended, is_late)
        status = (
            "refused-25"
            if is_refused
            else found.status
            if isinstance(found.status, str)
            else f"failed-{found.status}"
        )
        yield f"{number} {status} {len(base + found.text)}\n".encode()


class RandomDrillsTest(Generated):
    """Drills in the clear: scripts, well formed or not, over payloads that may be spoiled."""

    def payload(self, box):
        text = bytes(self.random.choices(range(97, 123), k=self.random.randrange(15)))
        more = (
            b"x",
            box.seal(3, True, b""),
            box.seal(4, True, b"xy"),
            box.seal(CHUNKS - 1, False, b"XXXX"),
            bytes(TAG),
        )
        return bytearray(
            standard.payload_of(box, text) + (self.pick(*more) if self.is_rare(0.3) else b"")
        )

    def some_line(self, size):
        """A line of a script over so many bytes."""
        how = self.random.random()
        if how < 0.55:
            at = min(self.pick(0, 20, 40, self.random.randrange(size + 1)), size)
            return f"piece {at} {min(self.pick(20, size - at, 40, self.random.randrange(size - at + 1), 0), size - at)}"
        if how < 0.6:
            return f"flip {self.random.randrange(size)}"
        if how < 0.75:
            return "end"
        if how < 0.97:
            return f"restart {self.pick(0, 1, 2, 3, 4, CHUNKS - 1, CHUNKS, 2**64 - 1)}"
        return self.pick(*NO_SCRIPT_LINE).format(n=size, m=size + 1)

    def test_drills(self):
        box = standard.ClearBox()
        for _ in self.turns(500):
            payload = self.payload(box)
            lines = [self.some_line(len(payload)) for _ in range(self.random.randrange(1, 9))]
            bad = next(
                (at for at, line in enumerate(lines, 1) if not is_script_line(line, len(payload))),
                None,
            )
            script = "".join(f"{it}\n" for it in lines).encode()
            if self.is_rare(0.03):
                script, bad = script[:-1], bad or len(lines)
            self.write("script", script)
            self.write("in", bytes(payload))
            ended = self.run_confined("drill", "--clear", "script", "in")
            if bad:
                self.compare(ended, 2, line=b"age_tool: bad script line %d\n" % bad, case=script)
            else:
                self.compare(
                    ended, 0, b"".join(answers(box, payload, lines)), case=(script, payload)
                )
