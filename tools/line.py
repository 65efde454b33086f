#!/usr/bin/env python3
"""The line of the sheet program, said once for the scripts: each field's name, how it is printed and what it means, in the line's order.

usage: tools/line.py --fields               what each field means, as dwsheet --fields prints it
       tools/line.py --header FILE          writes the enum of the result's words into the C header FILE, between its two marks
       tools/line.py --check-header FILE    status 1 where something else stands there; writes nothing
       tools/line.py --c                    the names of the result's words, for link/check.c
       tools/line.py --rust                 the fields, and the line of their values, for link/check.rs and the oracle's driver

All the rest is made from FIELDS. A field more is one entry at its end, and then tools/line.py --header link/dwexport.h.
"""
import collections
import os
import re
import shutil
import sys
import textwrap

# How a number is printed: the most digits, what its word looks like, its format, its base.
Form = collections.namedtuple("Form", "digits word format base")
DECIMAL = Form(20, "0|[1-9][0-9]{0,19}", "%d", 10)
HEX = Form(16, "[0-9a-f]{16}", "%016x", 16)

# A field of the line. `for_c` is what the C header says of it, where that is not its meaning.
Field = collections.namedtuple("Field", "name form meaning for_c", defaults=[None])
FIELDS = [
    Field("index", DECIMAL, "of the sheet in the file, from 0"),
    Field("refusal", DECIMAL, "0: accepted; 1 to 14: why not (README.md has the table)",
          "0 accepted; else 1 to 14, and every word but the place is 0 (README.md has the table)"),
    Field("place", DECIMAL, "where, for a refusal that has a place"),
    Field("statistic", HEX, "the Durbin-Watson statistic, its bits in hex", "the bits of the statistic, a double"),
    Field("p", HEX, "its bits in hex", "the bits of p, a double"),
    Field("path", DECIMAL, "1 fewer than three rows, p is 1; 2 exact; 3 normal; 4 normal with fewer than five rows, p is 1; 0 none"),
    Field("fallback", DECIMAL, "1: the exact path had no value, and path 3 or 4 answered"),
    Field("kept", DECIMAL, "eigenvalues kept"),
    Field("sweeps", DECIMAL, "of the QL step"),
    Field("bisections", DECIMAL, "of the integral"),
    Field("evaluations", DECIMAL, "of the integrand"),
    Field("settled", DECIMAL, "1: accepted, no index of the QL step had a coupling left after its 60 sweeps, and where an integral was needed the final sum of its errors is at most 5e-12"),
]

NAMES = [field.name for field in FIELDS]
WORDS = [field for field in FIELDS if field.name != "index"]  # the result in C: a call has no index
LONGEST = sum(field.form.digits + 1 for field in FIELDS)  # of a line, in bytes: behind each field a space or the newline
LINE = re.compile(" ".join("(%s)" % field.form.word for field in FIELDS), re.ASCII)  # without its newline

# What a line says, a whole number by each name: of the statistic and p their bits. What is not given is 0.
Record = collections.namedtuple("Record", NAMES, defaults=[0] * len(NAMES))

BEGIN = "/* The words of the result, in the order of the sheet program's line, as tools/line.py writes them. */\n"
END = "/* The end of what tools/line.py writes. */\n"
WIDTH = 140  # of the header's lines


def record_of(line):
    """What a line says, None where it is no line of the sheet program. The newline is not part of it."""
    found = LINE.fullmatch(line)
    return found and Record(*(int(word, field.form.base) for field, word in zip(FIELDS, found.groups())))


def record_and_rest(line):
    """The same of a line that has more words behind, and these; None and no word where it does not begin as a line."""
    words = line.split(" ")
    record = record_of(" ".join(words[:len(FIELDS)]))
    return record, words[len(FIELDS):] if record else []


def line_of(record):
    """The line that says this, without its newline."""
    return " ".join(field.form.format % number for field, number in zip(FIELDS, record))


def fields_text():
    """A line a field: its name, and what it means."""
    width = max(map(len, NAMES))
    return "".join("%-*s  %s\n" % (width, field.name, field.meaning) for field in FIELDS)


def constant(field):
    return "DWEXPORT_" + field.name.upper()


def c_enum():
    """The enum that the C header has between its marks."""
    heads = ["    %s = %d," % (constant(field), at) for at, field in enumerate(WORDS)]
    start = max(map(len, heads)) + 1
    lines = ["enum {"]
    for head, field in zip(heads, WORDS):
        lines += textwrap.wrap("/* %s */" % (field.for_c or field.meaning), WIDTH, initial_indent=head.ljust(start), subsequent_indent=" " * (start + 3))
    return "\n".join(lines + ["    DWEXPORT_WORDS = %d" % len(WORDS), "};", ""])


def c_names():
    """The names of the result's words, for a C program that includes dwexport.h."""
    lines = ["/* Written by tools/line.py --c: the names of the result's words. */", "static const char *const names[DWEXPORT_WORDS] = {"]
    return "\n".join(lines + ['    [%s] = "%s",' % (constant(field), field.name) for field in WORDS] + ["};", ""])


RUST = """\
// Written by tools/line.py --rust: the fields of the sheet program's line, in order.
#[derive(Clone, Copy)]
pub enum Field {
%s
}

/// Each field, and whether it is printed by its bits in hex.
pub const FIELDS: [(Field, bool); %d] = [
%s
];

/// The line of these values, without its newline.
pub fn line(value: impl Fn(Field) -> u64) -> String {
    let word = |&(field, hex): &(Field, bool)| if hex { format!("{:016x}", value(field)) } else { value(field).to_string() };
    FIELDS.iter().map(word).collect::<Vec<_>>().join(" ")
}
"""


def rust_text():
    """The fields for a Rust program: a match over the enum that leaves one out is refused by the compiler."""
    variants = [field.name.title().replace("_", "") for field in FIELDS]
    rows = ["    (Field::%s, %s)," % (variant, str(field.form is HEX).lower()) for variant, field in zip(variants, FIELDS)]
    return RUST % ("\n".join("    %s," % variant for variant in variants), len(FIELDS), "\n".join(rows))


def with_enum(header):
    """The header with the enum between its marks, None where it has not both."""
    before, begin, rest = header.partition(BEGIN)
    _, end, after = rest.partition(END)
    return before + begin + c_enum() + end + after if begin and end else None


def header(path, check):
    """Brings the header to the fields, or says where it is not. Gives the status."""
    try:
        with open(path, encoding="utf-8", newline="") as stream:
            found = stream.read()
        wanted = with_enum(found)
        if wanted is None:
            print("line.py: %s has not the two marks between which the result's words stand" % path, file=sys.stderr)
            return 1
        if found == wanted:
            return 0
        if check:
            print("line.py: %s has other words of the result; tools/line.py --header writes them" % path, file=sys.stderr)
            return 1
        with open(path + ".new", "w", encoding="utf-8", newline="") as stream:
            stream.write(wanted)
        shutil.copymode(path, path + ".new")
        os.replace(path + ".new", path)
    except (OSError, UnicodeDecodeError) as error:
        print("line.py: %s" % error, file=sys.stderr)
        return 1
    return 0


def main():
    texts = {"--fields": fields_text, "--c": c_names, "--rust": rust_text}
    flag, given = sys.argv[1] if len(sys.argv) > 1 else "", sys.argv[2:]
    if flag in texts and not given:
        sys.stdout.write(texts[flag]())
        return 0
    if flag in ("--header", "--check-header") and len(given) == 1:
        return header(given[0], flag == "--check-header")
    print(__doc__.split("\n\n")[1], file=sys.stderr)
    return 2


if __name__ == "__main__":
    sys.exit(main())
