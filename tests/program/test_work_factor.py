"""Work factors (--log, --max-log): what a derivation costs, and when it isn't begun."""
import resource

from tests.program.case import ProgramCase, within_memory


class WorkFactorTest(ProgramCase):
    def test_scrypt_once(self):
        """The limit of the work factor, which leaves room to derive the key more than once, costs nothing; and an encryption costs what a
        decryption does."""
        self.encrypt("15 plain fifteen.age")

        def cost(words):
            before = resource.getrusage(resource.RUSAGE_CHILDREN)
            self.tool(*words.split())
            after = resource.getrusage(resource.RUSAGE_CHILDREN)
            return after.ru_utime - before.ru_utime

        commands = (
            "encrypt --pass pass --log 15 plain back",
            *(f"decrypt --pass pass --max-log {it} fifteen.age back" for it in (15, 22)),
        )
        costs = [min(cost(words) for _ in range(5)) for words in commands]
        self.see("scrypt is run once by each", max(costs) < 1.6 * min(costs), costs)

    def test_drill_of_a_costly_file(self):
        """A drill opens what `encrypt` writes by default."""
        self.tool(*"encrypt --pass pass plain eighteen.age".split())
        self.write("script", b"piece 0 65552\n")
        self.ends(
            "a drill at work factor 18",
            self.tool(*"drill --pass pass script eighteen.age".split()),
            0,
            b"1 open 65536\n",
        )

    def test_work_factors(self):
        """A report at a terminal, and a refusal, say what memory a passphrase takes."""
        zeros = "A" * 43
        for log, said in (
            ("1", "work factor 1: a passphrase takes 2.0 KiB of memory"),
            ("19", "work factor 19: a passphrase takes 512.0 MiB of memory"),
            ("22", "work factor 22: a passphrase takes 4.0 GiB of memory"),
            ("23", None),
            ("300", None),
            ("9" * 5_000, None),
        ):
            self.write(
                "costly",
                f"age-encryption.org/v1\n-> scrypt AAAAAAAAAAAAAAAAAAAAAA {log}\n{zeros}\n--- {zeros}\n".encode(),
            )
            line = f"age_tool: {said or 'work factor above 22: no age_tool opens it'}\n".encode()
            with open(self.path("costly"), "rb") as costly:
                for ended in (
                    self.on_terminal("stderr", "inspect", "costly"),
                    self.on_terminal("stderr", stdin=costly),
                ):
                    self.see(
                        f"a report of {log[:5]}",
                        (ended.returncode, ended.stderr) == (0, line if len(log) < 4 else b""),
                        ended.stderr,
                    )
            ended = self.tool("inspect", "costly")
            self.see(
                f"a report of {log[:5]} to a pipe",
                (ended.returncode, ended.stderr, ended.advice) == (0, b"", b""),
                ended.advice,
            )
            if log != "1":
                ended = self.decrypt("--max-log", "1", "costly", "back")
                self.ends(f"a limit below {log[:5]}", ended, 1, b"", b"age_tool: 11 WorkTooHigh\n")
                retry = f"; if you trust the file, retry with --max-log {log}" if said else ""
                wanted = (
                    line.replace(b"age_tool: ", b"age_tool: costly: ", 1)[:-1]
                    + f"{retry} (age_tool help 11)\n".encode()
                )
                self.see(f"the advice on {log[:5]}", ended.advice == wanted, ended.advice)
        scrypt = f"-> scrypt AAAAAAAAAAAAAAAAAAAAAA 1\n{zeros}\n"
        for what, stanzas in (
            ("two stanzas", f"{scrypt}-> X25519 {zeros}\n{zeros}\n"),
            ("two of a passphrase", 2 * scrypt),
            ("a longer body", f"{scrypt[:-1]}A\n"),
            ("a body of two lines", f"{scrypt[:35]}{64 * 'A'}\n\n"),
            ("a short salt", scrypt.replace("A", "", 1)),
            ("no passphrase", f"-> X25519 {zeros}\n{zeros}\n"),
        ):
            self.write("unopened", f"age-encryption.org/v1\n{stanzas}--- {zeros}\n".encode())
            ended = self.on_terminal("stderr", "inspect", "unopened")
            self.see(
                f"no passphrase opens {what}",
                (ended.returncode, ended.stderr) == (0, b""),
                ended.stderr,
            )
        ended = self.on_terminal("stderr", "inspect", "pass")
        self.see("a refused file has none", b"work factor" not in ended.stderr, ended.stderr)

    def test_memory(self):
        """A header by hand, which asks for 4 GiB: 28 if scrypt is tried, 11 if its work factor is compared with the limit before that."""
        ended = self.encrypt("22 plain never", preexec_fn=within_memory)
        self.ends("no memory for a work factor of 22", ended, 1, b"", b"age_tool: 28 Memory\n")
        zeros = "A" * 43
        self.write(
            "costly",
            f"age-encryption.org/v1\n-> scrypt AAAAAAAAAAAAAAAAAAAAAA 22\n{zeros}\n--- {zeros}\n".encode(),
        )
        for log, fault in (("21", b"11 WorkTooHigh"), ("22", b"28 Memory")):
            ended = self.decrypt("--max-log", log, "costly", "never", preexec_fn=within_memory)
            self.ends(
                f"a work factor of 22 within a limit of {log}",
                ended,
                1,
                b"",
                b"age_tool: " + fault + b"\n",
            )
        self.write("script", b"end\n")
        ended = self.tool(*"drill --pass pass script costly".split(), preexec_fn=within_memory)
        self.ends("a drill at a work factor of 22", ended, 1, b"", b"age_tool: 28 Memory\n")
