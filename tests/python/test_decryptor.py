"""Decryptor and Encryptor of the Python module, for bytes that come by themselves: the same faults and text as a reader finds, whatever the pieces
are; calls after a fault, an interruption, a fork; two threads on one object; and a handler of uploads."""
import contextlib
import copy
import io
import os
import random
import sys
from unittest import mock

from tests import process
from tests.bindings import (
    LENGTHS,
    PYTHON,
    BindingsCase,
    agefile,
    plain_of,
    python_with,
    raised,
    setUpModule,
)
from tests.python.files import Interruption, interrupted_at, together
from tools.workspace import LIBRARY

FILES = 300
# A handler of an upload, and what it answers to a whole file and to a cut one.
SERVED = """
import agefile, aiohttp, asyncio
from aiohttp import web

async def decrypt(request):
    with agefile.Decryptor(passphrase="correct horse", max_work=18) as text, open("restored", "wb") as out:
        try:
            async for piece in request.content.iter_any():
                out.write(await asyncio.to_thread(text.update, piece))
            out.write(text.finish())  # the text is complete only if this returned
        except agefile.AgeError:
            raise web.HTTPBadRequest(text="not a whole age file for this passphrase")
    return web.Response()

async def main():
    app = web.Application()
    app.add_routes([web.post("/decrypt", decrypt)])
    runner = web.AppRunner(app)
    await runner.setup()
    site = web.TCPSite(runner, "127.0.0.1", 0)
    await site.start()
    place = f"http://127.0.0.1:{site._server.sockets[0].getsockname()[1]}/decrypt"
    data = open("notes.age", "rb").read()
    async def pieces(end):
        for at in range(0, end, 30_000):
            yield data[at:min(at + 30_000, end)]
    async with aiohttp.ClientSession() as session:
        for end in (len(data), len(data) - 1):
            async with session.post(place, data=pieces(end)) as answer:
                print(answer.status)
    await runner.cleanup()

asyncio.run(main())
"""


def sealed(text):
    return agefile.encrypt(text, passphrase="pw", work=1)


def pushed(rnd, data, most):
    """The fault and the text of a file that comes in random pieces, and whether a later call says the same again."""
    it, text, at = agefile.Decryptor(passphrase="pw"), b"", 0
    try:
        while at < len(data):
            size = 1 if at < 200 and most == 1_000 else rnd.randrange(1, most)
            text += it.update(memoryview(data)[at : at + size])
            at += size
        return None, text + it.finish(), True
    except agefile.AgeError as fault:
        try:
            it.finish()
        except agefile.AgeError as again:
            return (fault.number, fault.chunk), text, again.args == fault.args
        return fault, text, False


def read(data):
    """The same by a reader."""
    text = b""
    try:
        with agefile.open(io.BytesIO(data), passphrase="pw") as file:
            while piece := file.read1():
                text += piece
    except agefile.AgeError as fault:
        return (fault.number, fault.chunk), text, True
    return None, text, True


def changed(rnd, data):
    """A file that was cut, damaged, lengthened or left as it is."""
    held, how = bytearray(data), rnd.randrange(4)
    if how == 1:
        del held[rnd.randrange(len(held)) :]
    elif how == 2:
        held[rnd.randrange(len(held))] ^= 1
    elif how == 3:
        held += b"x" * rnd.choice([1, 70_000])
    return bytes(held)


def interrupt_within():
    """Raises what a signal's handler does, unless _call() has just returned: then it is for its caller to know."""
    at = sys._getframe(1).f_locals
    if at["event"] != "return" or at["frame"].f_code.co_name != "_call":
        raise Interruption


def encrypted(text, size):
    file = agefile.Encryptor(passphrase="pw", work=1)
    return b"".join(
        [file.update(text[at : at + size]) for at in range(0, len(text), size)] + [file.finish()]
    )


class DecryptorTest(BindingsCase):
    def test_as_a_reader(self):
        seed = int(os.environ.get("AGE_SEED") or 1)
        rnd, whole = random.Random(seed), {it: sealed(plain_of(it)) for it in LENGTHS}
        for turn in range(FILES):
            data = changed(rnd, whole[rnd.choice(LENGTHS)])
            want, got = read(data), pushed(rnd, data, rnd.choice([1_000, 70_000, 300_000]))
            if got != want:
                self.see(
                    f"seed {seed}, file {turn}: {got[0]}, not {want[0]}",
                    False,
                    len(got[1]),
                    len(want[1]),
                    got[2],
                )
        for length in LENGTHS:
            self.see(
                f"{length} bytes",
                pushed(rnd, whole[length], 70_000) == (None, plain_of(length), True),
            )
        self.see("no bytes", read(b"") == pushed(rnd, b"", 7))

    def test_headers(self):
        data = sealed(b"text")
        it = agefile.Decryptor(passphrase="pw")
        self.see(
            "before the header is there",
            it.update(b"") == it.update(data[:100]) == b"" and not it.opened,
        )
        self.see(
            "once it is", it.update(data[100:]) == b"" and it.opened and it.finish() == b"text"
        )
        self.see(
            "after the end", raised(ValueError, it.finish) and raised(ValueError, it.update, b"")
        )
        self.see(
            "another passphrase",
            raised(agefile.WrongKey, agefile.Decryptor(passphrase="other").update, data),
        )
        self.see(
            "what is no age file",
            raised(agefile.AgeError, agefile.Decryptor(passphrase="pw").update, b"x\n"),
        )
        self.see(
            "no bytes of it", raised(TypeError, agefile.Decryptor(passphrase="pw").update, "text")
        )
        endless = agefile.Decryptor(passphrase="pw")
        endless.update(b"age-encryption.org/v1\n")
        self.see(
            "a header without an end",
            raised(
                agefile.NotWhole, lambda: [endless.update(b"-> x\n" * 20_000) for _ in range(40)]
            ),
        )

    def test_encryptor(self):
        for length in LENGTHS:
            for size in (7_000, 65_536, 300_000):
                text = plain_of(length)
                self.see(
                    f"{length} bytes in pieces of {size}",
                    self.judged(encrypted(text, size)) == ((0, None), text),
                )
        file = agefile.Encryptor(passphrase="pw", work=1)
        begin = file.update(b"text")
        self.see("the header comes first", begin.startswith(b"age-encryption.org/v1\n"))
        self.see("what is no bytes", raised(TypeError, file.update, "text"))
        child = os.fork()
        if child == 0:
            os._exit(
                0
                if raised(ValueError, file.update, b"text") and raised(ValueError, file.finish)
                else 1
            )
        self.see("a forked child", os.waitpid(child, 0)[1] == 0)
        self.see("after that", self.judged(begin + file.finish()) == ((0, None), b"text"))
        self.see(
            "after the end",
            raised(ValueError, file.update, b"x") and raised(ValueError, file.finish),
        )
        self.see(
            "copies",
            raised(TypeError, copy.copy, file)
            and raised(TypeError, copy.deepcopy, agefile.Decryptor(passphrase="pw")),
        )

    def test_close(self):
        """After close() and `with`, of a file that is decrypted or encrypted in part, each later call is refused."""
        text = plain_of(100_000)
        data = sealed(text)
        for what, end in (
            ("nothing", 0),
            ("a part of the header", 50),
            ("a chunk and more", 80_000),
        ):
            it = agefile.Decryptor(passphrase="pw")
            begun = it.update(data[:end])
            self.see(
                f"after {what}: what came out",
                begun == text[: 65_536 * (end > 70_000)] and it.opened == (end > 200),
            )
            with contextlib.suppress(ValueError), it as same:
                pass
            self.see(f"after {what}: what `with` gives", same is it)
            self.see(
                f"after {what}: later calls",
                raised(ValueError, it.update, data[end:]) and raised(ValueError, it.finish),
            )
            it.close()
        with agefile.Decryptor(passphrase="pw") as it:
            whole = it.update(data) + it.finish()
        self.see(
            "a file that was decrypted to its end", whole == text and raised(ValueError, it.finish)
        )
        with contextlib.suppress(ValueError), agefile.Encryptor(passphrase="pw", work=1) as it:
            made = it.update(text)
        self.see(
            "calls after `with`",
            raised(ValueError, it.update, b"x") and raised(ValueError, it.finish),
        )
        self.see(
            "a file that wasn't finished",
            raised(agefile.AgeError, agefile.decrypt, made, passphrase="pw"),
        )
        with agefile.Encryptor(passphrase="pw", work=1) as it:
            made = it.update(text) + it.finish()
        self.see("a file that was finished", agefile.decrypt(made, passphrase="pw") == text)

    def test_keys_are_freed(self):
        """The library's objects, which overwrite the key as they go, go with what holds them: by close(), finish() or `with`, or when nobody has it."""
        text, path = plain_of(100_000), self.path("freed.age")
        data = sealed(text)
        path.write_bytes(data)
        freed, calls = [], {
            it: getattr(agefile._library.C, it)
            for it in ("agefile_decoder_free", "agefile_encoder_free")
        }

        def counted(name):
            return lambda handle: freed.append(name) or calls[name](handle)

        def ends(it, *calls):
            for call, *words in calls:
                getattr(it, call)(*words)
            return it

        with contextlib.ExitStack() as stack:
            for name in calls:
                stack.enter_context(mock.patch.object(agefile._library.C, name, counted(name)))
            for what, name, count, call in (
                (
                    "a reader",
                    "decoder",
                    1,
                    lambda: ends(agefile.open(path, passphrase="pw"), ("read", 70_000), ("close",)),
                ),
                (
                    "one that nobody closes",
                    "decoder",
                    1,
                    lambda: agefile.open(path, passphrase="pw").read(1),
                ),
                (
                    "a header that doesn't open",
                    "decoder",
                    1,
                    lambda: raised(agefile.WrongKey, agefile.open, path, passphrase="other"),
                ),
                (
                    "text",
                    "decoder",
                    1,
                    lambda: ends(
                        agefile.open(path, "rt", passphrase="pw", encoding="latin-1"),
                        ("read",),
                        ("close",),
                    ),
                ),
                (
                    "salvage",
                    "decoder",
                    1,
                    lambda: agefile.salvage(path, io.BytesIO(), passphrase="pw"),
                ),
                ("inspect", "decoder", 1, lambda: agefile.inspect(path)),
                ("decrypt", "decoder", 1, lambda: agefile.decrypt(data, passphrase="pw")),
                (
                    "several workers",
                    "decoder",
                    1,
                    lambda: agefile.decrypt(data, passphrase="pw", workers=2),
                ),
                (
                    "a Decryptor",
                    "decoder",
                    1,
                    lambda: ends(agefile.Decryptor(passphrase="pw"), ("update", data), ("finish",)),
                ),
                (
                    "one that is closed",
                    "decoder",
                    1,
                    lambda: ends(agefile.Decryptor(passphrase="pw"), ("update", data), ("close",)),
                ),
                (
                    "an Encryptor",
                    "encoder",
                    1,
                    lambda: ends(
                        agefile.Encryptor(passphrase="pw", work=1), ("update", text), ("finish",)
                    ),
                ),
                (
                    "one that is closed",
                    "encoder",
                    1,
                    lambda: ends(
                        agefile.Encryptor(passphrase="pw", work=1), ("update", text), ("close",)
                    ),
                ),
                (
                    "a writer",
                    "encoder",
                    1,
                    lambda: ends(
                        agefile.open(io.BytesIO(), "wb", passphrase="pw", work=1),
                        ("write", text),
                        ("close",),
                    ),
                ),
                (
                    "one that is abandoned",
                    "encoder",
                    1,
                    lambda: ends(
                        agefile.open(io.BytesIO(), "wb", passphrase="pw", work=1),
                        ("write", text),
                        ("abandon",),
                    ),
                ),
            ):
                freed.clear()
                kept = call()
                self.see(
                    f"{what}: what is freed", freed == [f"agefile_{name}_free"] * count, freed, kept
                )

    def test_any_calls(self):
        """Any call may follow any other: what a Decryptor gives is a beginning of the text, and all of it if finish() returned; what an Encryptor
        gives is a file of what it was given since it was made, and of nothing else."""
        seed = int(os.environ.get("AGE_SEED") or 1)
        rnd, text = random.Random(seed), plain_of(200_000)
        data = sealed(text)
        for turn in range(200):
            it, got, at, is_whole = agefile.Decryptor(passphrase="pw"), b"", 0, False
            for _ in range(12):
                call, size = rnd.choice(
                    ["update"] * 9 + ["finish", "close", "__enter__"]
                ), rnd.choice([0, 1, 150, 65_552, 150_000])
                with contextlib.suppress(ValueError, agefile.AgeError):
                    found = getattr(it, call)(*[data[at : at + size]] * (call == "update"))
                    at += size * (call == "update")
                    got += found if call != "__enter__" and found else b""
                    is_whole |= call == "finish"
            self.see(
                f"seed {seed}, turn {turn}, a Decryptor",
                text.startswith(got) and (not is_whole or got == text),
                len(got),
                is_whole,
            )
        for turn in range(200):
            it, given, got, is_whole = agefile.Encryptor(passphrase="pw", work=1), b"", b"", False
            for _ in range(8):
                call, piece = rnd.choice(
                    ["update"] * 6 + ["finish", "close", "__enter__"]
                ), rnd.randbytes(rnd.choice([0, 1, 65_536, 100_000]))
                with contextlib.suppress(ValueError):
                    found = getattr(it, call)(*[piece] * (call == "update"))
                    given += piece * (call == "update")
                    got += found if call != "__enter__" and found else b""
                    is_whole |= call == "finish"
            read = self.judged(got)
            right = (
                read == ((0, None), given)
                if is_whole
                else read[0] != (0, None) and given.startswith(read[1])
            )
            self.see(
                f"seed {seed}, turn {turn}, an Encryptor", right, read[0], len(given), is_whole
            )

    def test_copied_keys(self):
        """A key that the caller overwrites afterwards, as careful people do, is still the key."""
        for call in ("decryptor", "encryptor", "reader"):
            word, key = bytearray(b"pw"), bytearray(b"\7" * 16)
            if call == "decryptor":
                it = agefile.Decryptor(file_key=key)
                key[:] = bytes(16)
                with contextlib.suppress(agefile.AgeError):
                    got = it.update(self.sealed(b"text")) + it.finish()
            elif call == "encryptor":
                it = agefile.Encryptor(passphrase=word, work=1)
                word[:] = b"xx"
                got = agefile.decrypt(it.update(b"text") + it.finish(), passphrase="pw")
            else:
                it = agefile.Decryptor(passphrase=word)
                word[:] = b"xx"
                got = it.update(self.sealed(b"text")) + it.finish()
            self.see(f"{call}: a key that was overwritten", got == b"text", got)

    def left(self, it, *calls):
        """What a `with` block raises in which these calls are made, whose own exceptions it keeps."""
        try:
            with it:
                for call, *words in calls:
                    with contextlib.suppress(Exception):
                        getattr(it, call)(*words)
        except Exception as fault:
            return fault
        return None

    def test_unfinished(self):
        """A `with` block that ends without finish() raises, unless something else did, or close() was called."""
        text = plain_of(200_000)
        data = sealed(text)
        damaged = bytearray(data)
        damaged[len(data) - 100_000] ^= 1
        for what, kind, calls in (
            ("nothing", ValueError, []),
            ("no bytes", ValueError, [("update", b"")]),
            ("a part of the header", ValueError, [("update", data[:50])]),
            ("a truncated file", ValueError, [("update", data[:-1])]),
            ("all of it", ValueError, [("update", data)]),
            ("what is no bytes", ValueError, [("update", "text")]),
            ("a damaged chunk after others", ValueError, [("update", damaged)]),
            ("the fault of it", None, [("update", damaged), ("finish",)]),
            ("another file", None, [("update", b"text\n")]),
            ("the end", None, [("update", data), ("finish",)]),
            ("no end", None, [("update", data[:-1]), ("finish",)]),
            ("close", None, [("update", data[:100]), ("close",)]),
        ):
            it = agefile.Decryptor(passphrase="pw")
            fault = self.left(it, *calls)
            is_right = (
                fault is None
                if kind is None
                else type(fault) is kind and ("finish()" in str(fault)) == (kind is ValueError)
            )
            self.see(f"Decryptor: {what}", is_right and raised(Exception, it.finish), repr(fault))
        for what, kind, calls in (
            ("nothing", ValueError, []),
            ("a text", ValueError, [("update", text)]),
            ("what is no bytes", ValueError, [("update", "text")]),
            ("the end", None, [("update", text), ("finish",)]),
            ("close", None, [("update", text), ("close",)]),
        ):
            it = agefile.Encryptor(passphrase="pw", work=1)
            fault = self.left(it, *calls)
            self.see(
                f"Encryptor: {what}",
                fault is None if kind is None else type(fault) is kind and "finish()" in str(fault),
                repr(fault),
            )
            self.see(f"Encryptor: {what}: later calls", raised(ValueError, it.update, b"x"))
        for made in (
            lambda: agefile.Decryptor(passphrase="pw"),
            lambda: agefile.Encryptor(passphrase="pw", work=1),
        ):
            try:
                with made() as it:
                    it.update(b"")
                    raise KeyError("another")
            except BaseException as fault:
                self.see(
                    f"{type(it).__name__}: another exception",
                    type(fault) is KeyError and fault.__context__ is None,
                    repr(fault),
                )
        it = agefile.Encryptor(passphrase="pw", work=1)
        with mock.patch.object(agefile._library.C, "agefile_encode", lambda *_: 28):
            self.see("a call that failed", self.left(it, ("update", text)) is None)

    def test_interrupted(self):
        """An exception at each place where Python runs a signal's handler, and the same call again: it is refused, or the result is right."""
        package, text = str(PYTHON / "agefile"), plain_of(200_000)
        data = sealed(text)
        for made, given, right in (
            (lambda: agefile.Decryptor(passphrase="pw"), data, lambda got: got == text),
            (
                lambda: agefile.Encryptor(passphrase="pw", work=1),
                text,
                lambda got: agefile.decrypt(got, passphrase="pw") in (text, text[:100_000]),
            ),
        ):
            for is_again in (True, False):
                turn, wrong = 0, []
                while turn < 200:
                    it, returned = made(), []
                    begin = it.update(given[:100_000])
                    if not interrupted_at(
                        turn,
                        package,
                        lambda: returned.append(it.update(given[100_000:])),
                        interrupt_within,
                    ):
                        break
                    turn += 1
                    if returned:
                        continue
                    with contextlib.suppress(OSError, ValueError, agefile.AgeError):
                        got = (
                            begin + (it.update(given[100_000:]) if is_again else b"") + it.finish()
                        )
                        wrong += [] if right(got) else [turn]
                self.see(
                    f"{type(it).__name__}, again {is_again}: {turn} interruptions",
                    wrong == [] and turn > 10,
                    wrong,
                )

    def test_two_threads(self):
        """Calls of two threads on one object are whole."""
        file, pieces = agefile.Encryptor(passphrase="pw", work=1), []
        faults = together(
            [
                lambda it=it: [pieces.append(file.update(bytes([it]) * 1_000)) for _ in range(200)]
                for it in (1, 2)
            ]
        )
        made = b"".join(pieces) + file.finish()
        try:
            text = agefile.decrypt(made, passphrase="pw")
            self.see(
                "one text",
                faults == []
                and {text[at : at + 1_000] for at in range(0, len(text), 1_000)}
                == {b"\1" * 1_000, b"\2" * 1_000},
            )
        except agefile.AgeError as fault:  # the threads may have taken turns with what they got
            self.see("pieces in another order", fault.number == 17, fault)

    def test_small_things(self):
        """A fault's chunk; a passphrase that can't be encoded isn't in what is raised."""
        fault = agefile.AgeError(17, 3)
        self.see("the chunk", (fault.chunk, agefile.AgeError(13).chunk) == (3, None))
        try:
            agefile.encrypt(b"", passphrase="secret \ud800", work=1)
        except ValueError as it:
            held = repr((it, it.args, vars(it), it.__cause__)) + (
                "" if it.__suppress_context__ else repr(it.__context__)
            )
            self.see(
                "half of a surrogate pair", type(it) is ValueError and "secret" not in held, held
            )

    def test_handler(self):
        """A handler of uploads, by a Python that has aiohttp."""
        python = python_with("aiohttp")
        if python is None:
            self.skipTest("needs aiohttp")
        text = plain_of(200_000)
        self.write("in", text)
        self.write("horse", b"correct horse")
        self.tool(*"encrypt --pass horse --log 1 --no-sync in notes.age".split(), check=True)
        self.path("served.py").write_text(SERVED)
        env = {
            **os.environ,
            "PYTHONPATH": str(PYTHON),
            "PYTHONDONTWRITEBYTECODE": "1",
            "AGEFILE_LIBRARY": str(LIBRARY / "libagefile.so"),
        }
        run = process.run(
            [python, "served.py"],
            cwd=self.room,
            env=env,
            capture_output=True,
            text=True,
            timeout=120,
        )
        self.see(
            "a whole upload, and a cut one",
            run.returncode == 0 and run.stdout == "200\n400\n",
            run.stdout,
            run.stderr[-2000:],
        )
        self.see("what was restored", self.read("restored") == text[:196_608])
