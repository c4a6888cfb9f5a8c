"""The cuts that docs/cut.svg shows, and the faults that docs/resume.svg shows, made on a file: what age_tool says of each."""
from tests.case import Case
from tools.pictures import BLOCK, CHUNK, CUTS, FAULTS, LAST, NONCE, STEPS, TAG


class PicturesTest(Case):
    def test_cuts(self):
        text = bytes(2 * CHUNK + LAST - TAG)
        self.write("text", text)
        self.write("pass", b"cut\n")
        self.tool("encrypt", "--log", "1", "--pass", "pass", "text", "age")
        whole = self.read("age")
        header = len(whole) - NONCE - 2 * BLOCK - LAST
        for cut in CUTS:
            self.remove("out")
            self.write("cut", (whole + b"x")[: header + cut.after])
            said = self.tool("decrypt", "--pass", "pass", "cut", "out").stderr
            self.see(
                f"what is said, {cut.where}", said == f"age_tool: {cut.fault}\n".encode(), said
            )
            left = self.read("out") if self.is_there("out") else b""
            self.see(f"what is left, {cut.where}", left == text[: cut.left * CHUNK], len(left))

    def test_resume(self):
        """Each step of `resume` fails in turn, and at last none."""
        text = bytes(range(256)) * (3 * CHUNK // 256) + b"more"
        self.write("text", text)
        self.write("pass", b"resume\n")
        for name in ("age", "other"):
            self.tool("encrypt", "--log", "1", "--pass", "pass", "text", name)
        file, payload = self.read("age"), 149 + NONCE
        self.write("in", file[: payload + 2 * BLOCK])
        self.tool("decrypt", "--pass", "pass", "--save", "position", "in", "old")
        saved, old = self.read("position"), self.read("old")
        # (a letter of the tag, by another one of base64)
        forged = saved[:-3] + (b"B" if saved[-3:-2] == b"A" else b"A") + saved[-2:]
        at = payload + 2 * BLOCK
        damaged = file[:at] + bytes([file[at] ^ 1]) + file[at + 1 :]
        given = {
            23: ("position", b"no position\n"),
            24: ("in", self.read("other")),
            30: ("position", forged),
            25: ("old", old[:-1]),
            31: ("old", b"x" + old[1:]),
            20: ("in", file[: at - 1]),
            17: ("in", damaged),
            None: ("in", file),
        }
        self.see("all faults of the picture", {fault for _, fault in STEPS} == {*given} - {None})
        for fault, (name, held) in given.items():
            for it, right in (("in", file), ("position", saved), ("old", old)):
                self.write(it, held if it == name else right)
            said = self.tool(
                "resume", "--position", "position", "--old", "old", "--pass", "pass", "in", "out"
            ).stderr
            self.see(
                f"fault {fault}",
                said.startswith(f"age_tool: {fault} {FAULTS[fault]}".encode())
                if fault
                else said == b"" and self.read("out") == text,
                said,
            )
