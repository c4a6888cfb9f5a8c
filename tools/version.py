"""The version, which stands in include/agefile.h: its number is 10,000 * major + 100 * minor + patch. The program's, its modules' and the
pages' are written from it.

usage: python3 -m tools.version             prints it, as 2.0.0
       python3 -m tools.version --write     writes it wherever another stands
"""
import re
import sys

from tools.workspace import TOP, answer_help

HEADER = TOP / "include" / "agefile.h"
# The file whose version is replaced in all.
PROGRAM = TOP / "crates" / "age_cli_args" / "src" / "help.rt"
# Where it stands, in one of the forms below. (pkg-config's and CMake's files, packages and archives get it as they are made.)
FILES = (
    "README.md",
    "crates/age_cli_args/src/help.rt",
    "bindings/python/agefile/*.py",
    "bindings/python/agefile/program/*.py",
    "bindings/rust/Cargo.lock",
    "bindings/rust/*/Cargo.toml",
    "debian/changelog",
    "debian/tests/control",
    "docs/*.1",
    "tests/release/test_release.py",
    "tests/library/test_languages.py",
)


def version():
    number = int(re.search(r"#define AGEFILE_VERSION (\d+)", HEADER.read_text())[1])
    return f"{number // 10_000}.{number // 100 % 100}.{number % 100}"


def version_of_program():
    return re.search(r'VERSION: &str = "([\d.]+)', PROGRAM.read_text())[1]


def forms(version):
    """As text, as a number, and as a number in Rattle and in Python."""
    major, minor, patch = map(int, version.split("."))
    number = 10_000 * major + 100 * minor + patch
    return version, str(number), f"{number:_}", f"{major}_{minor:02}_{patch:02}"


def replaced(text, old, new):
    for one, other in zip(forms(old), forms(new)):
        text = re.sub(rf"(?<![\w.]){re.escape(one)}(?![\d_]|\.\d)", other, text)
    return text


def files():
    return [it for pattern in FILES for it in sorted(TOP.glob(pattern))]


def main():
    answer_help(__doc__)
    if sys.argv[1:] != ["--write"]:
        print(version())
        return
    old = version_of_program()
    for it in files():
        text = it.read_text()
        if (new := replaced(text, old, version())) != text:
            it.write_text(new)
            print(f"{it.relative_to(TOP)}: {version()}")


if __name__ == "__main__":
    main()
