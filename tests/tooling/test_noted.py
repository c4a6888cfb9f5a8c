"""Calls that change files and stand where no machine notes them (checks/noted), and the names by which that is known."""
import pathlib
import tempfile
import unittest

from tools import sources
from tools.workspace import TOP, loaded


class NotedTest(unittest.TestCase):
    def test_unnoted_calls(self):
        """A call that changes files is found if it stands where no machine notes it."""
        check = loaded(TOP / "checks/noted")
        spoiling = (
            "let _ = File::create(rt, path);",
            "file.set_len(0)?;",
            "fs::rename(rt, one, other)?;",
            "calls::remove(rt, path)?;",
        )
        spoiling += (
            "use age_host_syscalls::calls::{truncate, close};",
            "use age_host_syscalls::calls as harmless;",
            "let _ = open_to_write(rt, name, 0o600);",
        )
        spoiling += (
            "use std::io::{self, Write};",
            'io::Write::write(&mut file, b"x")?;',
            "use std::io::prelude::*;",
            'Writing::new(file).put(b"x")?;',
        )
        spoiling += (
            "use std::fs::{self, remove_file};",
            "use std::{fs::{self, remove_file}, io};",
            "use std::fs::{self, rename as moved};",
        )
        spoiling += (
            "use std::fs as disk;",
            "use std::{fs as disk, fs, io};",
            "use std::fs::File as Opened;",
            "use std::{io as sys};",
            "use std::fs::*;",
        )
        spoiling += (
            "std::os::unix::fs::FileExt::write_at(file, from, 0)?;",
            "use std::os::unix::fs::{chown};",
            "fs :: rename(rt, one, other)?;",
        )
        spoiling += ("use crate::output::HostOut as Own;", "use age_host_syscalls::Machine as Own;")
        opening = (
            "let mut own = Machine::new(self.rt);",
            "let _ = HostOut::create_later(alloc, rt, name, durability);",
            "let mut log = HostOut::faults(rt);",
        )
        spoiling += (
            "use std::fs::{File, rename};",
            "File::set_len(&file, 0)?;",
            "file.write_vectored(&held)?;",
            "fs::create(rt, path)?;",
        )
        spoiling += (
            'file.write_all_at(b"x", 0)?;',
            "let it = calls :: remove;",
            "libc::unlink(path);",
            "std::fs::remove_file(rt, name)?;",
        )
        spoiling += (
            "use std::process::Command;",
            'let _ = std::env::var("HOME");',
            "use std::{net, io};",
            "rt.stdin().read(into)?;",
            "std::thread::spawn(it);",
            'let _ = eprint!(rt; "{byte}");',
        )
        for place, lines in (
            ("age_host/src/files", spoiling),
            ("age_host/src/position_file", opening),
            (
                "age_host_output/src/output",
                ("calls::remove(rt, path)?;", "use age_host_syscalls::calls::{close, truncate};"),
            ),
        ):
            for line in lines:
                with self.subTest(line, place=place), tempfile.TemporaryDirectory() as room:
                    path = pathlib.Path(room) / f"{place}.rt"
                    path.parent.mkdir(parents=True)
                    path.write_text(f"{line}\nfn spoil() {{\n    {line}\n}}\n")
                    self.assertNotEqual(
                        [*check.unnoted([sources.Source(path, pathlib.Path(room))])], []
                    )

    def test_names_in_use(self):
        """Whatever a `pub use` calls a name, it is known by the one that its contract has."""
        for tree, names in (
            ("crate::hidden::promised as vow", ["promised"]),
            ("crate::{hidden::{promised}}", ["promised"]),
            ("crate::a::{b, c as d, e::{f, g,}, h::*}", ["b", "c", "f", "g", "*"]),
            ("{a::b, c}", ["b", "c"]),
            ("a::{self, x}", ["self", "x"]),
        ):
            with self.subTest(tree):
                self.assertEqual([it[-1] for it in sources.used(tree)], names)
