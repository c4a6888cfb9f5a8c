"""Makes docs/age_tool-faults.7, the manual page of the faults, and what `age_tool help N` prints, from the tables and the list of docs/FAULTS.md, so that
each is described once."""
import re
import textwrap

from tools.workspace import TOP

SOURCE, PAGE = TOP / "docs" / "FAULTS.md", TOP / "docs" / "age_tool-faults.7"
ROWS = TOP / "crates" / "age_cli_hints" / "src" / "faults.rt"
HEAD = """.\\" Made from docs/FAULTS.md by checks/documents --write.
.TH AGE_TOOL-FAULTS 7 2026-11-30 "age_tool" "Faults"
.SH NAME
age_tool\\-faults \\- what the faults of age_tool mean, what they leave, and what to do
.SH DESCRIPTION
A fault ends a run with status 1 and a line such as
.BR "age_tool: 17 ChunkDamaged chunk 3" .
OUT is the output of
.BR encrypt ,
.B decrypt
or
.BR resume .
The first line of a header is line 1, and the first chunk (65,536 bytes of plaintext) is chunk 0.
"""


def cells(line):
    return [it.strip() for it in re.split(r"(?<!\\)\|", line)[1:-1]]


def tables(text):
    """The rows of each table, with the names of their columns."""
    heads = None
    for line in text.splitlines():
        if not line.startswith("|"):
            heads = None
        elif heads is None:
            heads = cells(line)
        elif not re.match(r"^\|[-|]+$", line):
            yield dict(zip(heads, cells(line)))


def faults(text):
    """The row of each fault in a page, with what it leaves in OUT: nothing new, unless the page's list of exceptions names its number."""
    left = {
        number: " ".join(said.split())
        for numbers, said in re.findall(r"(?m)^- \*\*([\d, ]+)\*\*: (.*(?:\n  .*)*)", text)
        for number in numbers.split(", ")
    }
    return [
        {**row, "What is left in OUT": left.get(row["No."], "unchanged")}
        for row in tables(text)
        if "No." in row
    ]


def roff(text):
    """Markdown as a line of roff: code in bold, links as their words."""
    text = (
        re.sub(r"\[([^]]*)\]\([^)]*\)", r"\1", text)
        .replace(r"\|", "|")
        .replace("\\", r"\e")
        .replace("-", r"\-")
    )
    text = re.sub(r"`([^`]*)`", r"\\fB\1\\fR", text)
    return rf"\&{text}" if text.startswith((".", "'")) else text


def sentence(text):
    text = text[:1].upper() + text[1:]
    return text if text.endswith(".") else f"{text}."


def text_of_faults():
    """The page as it has to be."""
    parts, page = [HEAD], SOURCE.read_text()
    for row in faults(page):
        parts.append(f".SS {row['No.']} {row['Name']}\n{roff(sentence(row['What it means']))}\n")
        parts.append(
            f".br\nOUT: {roff(row['What is left in OUT'])}.\n.br\nWhat to do: {roff(row['What to do'])}.\n"
        )
    parts.append(
        ".SH STATUS 2\nA command line that can't be obeyed ends with status 2, and a message from the parser or one of these.\n"
    )
    for row in (it for it in tables(page) if "Message" in it):
        parts.append(f".TP\n{roff(row['Message'])}\n{roff(sentence(row['What it means']))}\n")
    parts.append(".SH SEE ALSO\n.BR age_tool (1)\n")
    return "".join(parts)


ROWS_HEAD = """//! The texts that `age_tool help N` prints about faults. Made from docs/FAULTS.md by
//! checks/documents --write.

/// The number of the last fault.
pub(crate) const LAST_FAULT: u8 = %d;

/// The name of a fault, and the text that says what it means, what it leaves and what to do.
pub(crate) type Row = (&'static str, &'static str);

/// Returns the row of the fault of this number, if there is one.
#[rattlefmt::skip]
pub(crate) fn look_up_row(number: u8) -> Option<Row> {
    let row = match number {
"""


def plain(text):
    """Markdown as a terminal shows it, in lines of 80 columns, none of which breaks code."""
    text = re.sub(r"\[([^]]*)\]\([^)]*\)", r"\1", text).replace(r"\|", "|")
    text = re.sub("`([^`]*)`", lambda it: it[1].replace(" ", "\0"), text)
    return "\n".join(
        textwrap.wrap(text, 80, break_long_words=False, break_on_hyphens=False)
    ).replace("\0", " ")


def rows_of_faults():
    """The file of the program that has a row for each fault."""
    rows, last = [], 0
    for row in faults(SOURCE.read_text()):
        said = [
            f"{row['No.']} {row['Name']}",
            sentence(row["What it means"]),
            f"OUT: {row['What is left in OUT']}.",
            f"What to do: {row['What to do']}.",
        ]
        text = "\n".join(map(plain, said)).replace("\\", "\\\\").replace('"', '\\"')
        last = max(last, int(row["No."]))
        rows.append(f'        {row["No."]} => ("{row["Name"]}", "{text}"),\n')
    return (
        f"{ROWS_HEAD % last}{''.join(rows)}        _ => return None,\n    }};\n    Some(row)\n}}\n"
    )
