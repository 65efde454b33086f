"""Rattle without its clauses is Rust. This cuts the clauses out.

Cut: `ghost use ..;` lines, the clauses `requires`, `ensures` and `ghost` with their braces, ghost fields and members, the attribute `tactic`, and `Drop` in a derive.
Opened: private modules, so that a function can be named by its module's path.
Sent to oracle/standins/rattle_std.rs: what Rattle's std has and Rust's has not, as the runtime that `main` takes, which it is here given at its head.
Written as Rust has it: the head of a `fmt`, which in Rattle has a parameter for what is written to.
Newlines inside what is cut stay, so that rustc's line numbers are those of the .rt file.
"""
import os
import re

CHARACTER = re.compile(r"b?'(?:\\[^']+|[^'\\])'")
WORD = re.compile(r"[A-Za-z_][A-Za-z_0-9]*")
# Names of Rattle's prelude that rattle_std.rs has.
HOST = ["HostRuntime", "Print", "Eprint", "Input", "Alloc", "AllocGlobal", "Vec"]


class StripError(Exception):
    """A source that can't be cut; the message says where."""


def comment_end(text, at):
    """Where the comment at `at` ends, or None where no comment begins there."""
    if text.startswith("//", at):
        end = text.find("\n", at)
        return len(text) if end < 0 else end
    if text.startswith("/*", at):
        depth, at = 1, at + 2
        while at < len(text) and depth:
            if text.startswith("/*", at):
                depth, at = depth + 1, at + 2
            elif text.startswith("*/", at):
                depth, at = depth - 1, at + 2
            else:
                at += 1
        return at
    return None


def string_end(text, at):
    """Where the string whose opening quote is at `at` ends."""
    at += 1
    while at < len(text) and text[at] != '"':
        at += 2 if text[at] == "\\" else 1
    return at + 1


def token_end(text, at):
    """Where the token at `at` ends: a comment, a string, a character, a word, or one sign."""
    end = comment_end(text, at)
    if end is not None:
        return end
    if text[at] == '"':
        return string_end(text, at)
    if text.startswith('b"', at):
        return string_end(text, at + 1)
    character = CHARACTER.match(text, at)
    if character:
        return character.end()
    word = WORD.match(text, at)
    return word.end() if word else at + 1


def skip_blank(text, at):
    """The next place that holds neither white space nor a comment."""
    while at < len(text):
        end = comment_end(text, at)
        if end is not None:
            at = end
        elif text[at].isspace():
            at += 1
        else:
            break
    return at


def clause_end(text, at):
    """Where the braces that open at `at` close. What they hold is antt: only strings hide a brace there."""
    depth, start = 0, at
    while at < len(text):
        if text[at] == '"':
            at = string_end(text, at)
            continue
        depth += (text[at] == "{") - (text[at] == "}")
        at += 1
        if depth == 0:
            return at
    line = text.count("\n", 0, start) + 1
    raise StripError("line %d: a clause's braces do not close" % line)


def cut_end(text, word, at):
    """Where what `word`, which ends at `at`, begins is over, if it is to be cut; else None."""
    if word not in ("ghost", "requires", "ensures"):
        return None
    at = skip_blank(text, at)
    following = WORD.match(text, at)
    if following:
        if word == "ghost" and following.group() == "use":
            end = text.find(";", at)
            if end < 0:
                raise StripError("a `ghost use` has no `;`")
            return end + 1
        at = skip_blank(text, following.end())  # the clause's name
        if word == "ghost" and text[at : at + 1] in (":", "="):
            return member_end(text, skip_blank(text, at + 1))
    return clause_end(text, at) if text.startswith("{", at) else None


def member_end(text, at):
    """Where a ghost field or member is over whose braces open at `at`, with its proof and the sign behind it; None where none open."""
    if not text.startswith("{", at):
        return None
    at = clause_end(text, at)
    behind = skip_blank(text, at)
    proof = WORD.match(text, behind)
    if proof and proof.group() == "by":
        at = clause_end(text, skip_blank(text, proof.end()))
        behind = skip_blank(text, at)
    return behind + 1 if text[behind : behind + 1] in (",", ";") else at


def without_clauses(text):
    """`text` with clauses and ghost lines cut, newlines kept."""
    kept, at = [], 0
    while at < len(text):
        end = token_end(text, at)
        cut = cut_end(text, text[at:end], end)
        if cut is None:
            kept.append(text[at:end])
            at = end
        else:
            kept.append("\n" * text.count("\n", at, cut))
            at = cut
    return "".join(kept)


def with_host(text):
    """`text` with what Rattle's prelude has for a program, where it uses it."""
    text = re.sub(r"^fn main\((\w+): HostRuntime\)([^{]*)\{", r"fn main()\2{ let \1 = HostRuntime;", text, flags=re.M)
    text = re.sub(r"\b(vec|e?print(?:ln)?)!(\s*[(\[]\s*(?:in\b|&?\w+\s*[;)]))", r"rattle_std::host_\1!\2", text)
    text = re.sub(r"(?<![\w:])io::writer\b", "rattle_std::host::writer", text)
    text = re.sub(r"(?<![\w:])std::(num|alloc)::", r"rattle_std::\1::", text)
    text = re.sub(r"\bfn fmt<(\w+): (?:\w+::)*Write>\(&self, (\w+): &mut ((?:\w+::)*)Formatter<\1>\)", r"fn fmt(&self, \2: &mut \3Formatter<'_>)", text)
    code = re.sub(r"//[^\n]*", "", text)
    used = [name for name in HOST if re.search(r"\b%s\b" % name, code) and not re.search(r"\b(?:struct|enum|trait|type) %s\b" % name, code)]
    if "HostRuntime" in used:
        # the methods of what `main` takes
        used += [name for name in ("Print", "Eprint", "Input", "Alloc") if name not in used and not re.search(r"\b(?:struct|enum|trait|type) %s\b" % name, code)]
    if not used:
        return text
    # behind what stands at the head for the whole file, on the line of the first item
    head = re.match(r"(?:[ \t]*(?://[^\n]*|#!\[[^\n]*)?\n)*", text).end()
    return text[:head] + "#[allow(unused_imports)] use rattle_std::host::{%s}; " % ", ".join(used) + text[head:]


def without_drop(text):
    """`text` with no `Drop` in a derive: Rust drops what Rattle asks a derive for."""

    def others(found):
        names = [name.strip() for name in found[1].split(",") if name.strip() not in ("", "Drop")]
        return "#[derive(%s)]" % ", ".join(names) if names else ""

    return re.sub(r"#\[derive\(([^)\n]*)\)\]", others, text)


def to_rust(text):
    """The Rust of one .rt file."""
    text = without_drop(re.sub(r"\bpub ghost\b", "ghost", text))
    text = re.sub(r"^([ \t]*)#!?\[tactic\([^\]]*\)\]", r"\1", without_clauses(text), flags=re.M)
    text = re.sub(r"^mod ", "pub mod ", text, flags=re.M)
    return with_host(text)


def rust_of_crate(folder):
    """The .rs files of a Rattle crate, by their place below src/."""
    files = {}
    source = os.path.join(folder, "src")
    for place, _, names in os.walk(source):
        for name in sorted(names):
            if name.endswith(".rt"):
                path = os.path.join(place, name)
                with open(path, encoding="utf-8") as stream:
                    text = stream.read()
                inner = os.path.relpath(path, source)[:-3] + ".rs"
                try:
                    files[inner] = to_rust(text)
                except StripError as error:
                    raise StripError("%s: %s" % (os.path.relpath(path, folder), error))
    return files


def find_item(files, pattern):
    """The path below the crate of the public item that `pattern` declares, or None.

    `files` is a crate's Rust by place. The root's own item or re-export wins over a module's.
    """
    name = pattern.split()[-1]
    declared = re.compile(r"^(?:#\[[^\]]*\] )?pub %s\b" % re.escape(pattern), re.M)
    exported = re.compile(r"^pub use [^;]*\b%s\b[^;]*;" % re.escape(name), re.M)
    root = files.get("lib.rs", "")
    if declared.search(root) or exported.search(root):
        return name
    homes = [place for place in sorted(files) if place != "lib.rs" and declared.search(files[place])]
    if not homes:
        return None
    if len(homes) > 1:
        raise StripError("`%s` is declared in several modules: %s" % (pattern, ", ".join(homes)))
    module = homes[0][:-3].replace(os.sep, "::")
    module = re.sub(r"::mod$", "", module)
    return module + "::" + name
