#!/usr/bin/env python3
"""Says which text that the program can print on standard error has no row in docs/ERRORS.md, and which row
no text of the code has; and for each type of a fault which command prints its texts without being named for them, and
which one is named and does not. Ends with 1 where there is one of any, else with 0.

The texts are those of crates/file_commands/src/complaint.rt, those that another file of that crate or of
run_commands, xm_commands, builders or replay_setup makes itself, those of each `Display` of a type named ..Fault in a crate,
and those that the script `xm_run`, `tools/words.sh` and `tools/launcher` say on standard error.
A row is a line of a table whose first column has the text as code, behind a paragraph that begins with
`Texts of` and the type; values are one word each. The variant `Memory` is left out: want of memory is told by the program as `no memory`.

A command prints the texts of a type where the function that carries it out calls one that makes the type's text, as
`no_image`, or calls one that calls such a one, and so on. The paragraph of a type names its commands after a comma and `for`, each as code,
by the words that are typed before the files.
"""
import re
import sys
from pathlib import Path

ROOT = Path(__file__).resolve().parent.parent
COMPLAINTS = "complaint.rt"
MAKERS = ("file_commands", "run_commands", "xm_commands", "builders", "replay_setup")
SCRIPT = "script"
SHELL = ("xm_run", "tools/words.sh", "tools/launcher")
# The words of the document for what a text of the script has as a value.
VALUES = r"\b(?:FILE|FOLDERS?|CRATE|DATE|TIME|TEXT|WHAT|[NMK])\b"
WORK = ROOT / "crates/xm_commands/src/work.rt"
# Where what is made of a file goes, and the type that says what it is.
KINDS = {"File": "MadeFile", "Report": "Printout"}
GRAMMAR = ROOT / "crates/command_line/specs/Grammar.antt"


def spelled(text):
    """A text with `_` for each value: that of the code has {names}, that of the document words."""
    text = re.sub(r"\{\w*\}", "_", text)
    text = re.sub(r"=\w+", "=_", text)
    return re.sub(r" [A-Z]\d?(?=:|$)", " _", text.strip())


def fault_texts():
    """For each fault type its texts, out of the arms of its `Display`."""
    for path in sorted(ROOT.glob("crates/*/src/**/*.rt")):
        source = path.read_text(encoding="utf-8")
        for found in re.finditer(r"impl fmt::Display for (\w*Fault) \{(.*?)\n\}", source, re.S):
            name, body = found.groups()
            arms = re.split(rf"\b{name}::(\w+)", body)
            for variant, arm in zip(arms[1::2], arms[2::2]):
                if variant == "Memory":
                    continue
                texts = re.findall(r'(?:write!\(f, |write_str\()"([^"]*)"', arm)
                if not texts:
                    sys.exit(f"no text found for {name}::{variant} in {path.relative_to(ROOT)}")
                for text in texts:
                    yield name, spelled(text)


def complaint_texts():
    """The texts of the program's own lines; a number stands behind a text that ends with `=`, or with a blank
    where the next text goes on."""
    source = (ROOT / "crates/file_commands/src" / COMPLAINTS).read_text(encoding="utf-8")
    begun = ""
    for text in re.findall(r'b"([^"]*)"', source):
        text = begun + text.replace("\\n", "").removeprefix("xm_run: ")
        text = text.removeprefix(": ")
        begun = text + "_" if text.endswith(" ") else ""
        if text and not begun:
            yield COMPLAINTS, spelled(re.sub(r"=$", "=_", text))


def made_texts():
    """The texts that the files of the commands make themselves, and not by a fault's `Display`."""
    for path in sorted(path for crate in MAKERS for path in ROOT.glob(f"crates/{crate}/src/*.rt")):
        for text in re.findall(r'format!\(in alloc; "([^"]*)"\)', path.read_text(encoding="utf-8")):
            if not re.fullmatch(r"\{\w+\}", text):
                yield path.name, spelled(text)


def script_texts():
    """The texts that the script and the launcher print on standard error, with `_` for each value. What a variable alone
    holds is a text elsewhere; one that begins with how it failed is a text for each way to fail."""
    source = "".join((ROOT / name).read_text(encoding="utf-8") for name in SHELL)
    failures = set(re.findall(r"^ *failure='(.*)'$", source, re.M))
    source = re.sub(r"\$\([^()]*\)|\$\{[^{}]*\}|\$\w+|%s", "_", source)
    said = re.findall(r"\b(?:say|stop|run_program) (?:'([^']+)'|\"([^\"]+)\"|(\w+)$)", source, re.M)
    said += re.findall(r"^(?:hint|unproved_line)='(.*)()()'$|^ *printf '(?=\w.*>&2$)()()(.*?)\\n'", source, re.M)
    for parts in said:
        text = re.sub(r"_(?:/\w+)+", "_", "".join(parts)).removeprefix("xm_run: ")
        for failure in failures if text.startswith("_: ") else {"_"}:
            if text != "_":
                yield SCRIPT, re.sub("^_", failure, text)


def rows():
    """Each row's text, with the types that the last paragraph before it names."""
    names = []
    for line in (ROOT / "docs/ERRORS.md").read_text(encoding="utf-8").splitlines():
        if line.startswith("## "):
            names = []
        elif not line.startswith("|"):
            found = re.findall(r"^Texts of `([\w.]+)`", line)
            names = found or names
        elif line.startswith("| `"):
            for code in re.findall(r"`([^`]*)`", line.split(" | ")[0]):
                code = code.removeprefix("xm_run: ").removeprefix("FILE: ")
                for name in names:
                    yield name, re.sub(VALUES, "_", code) if name == SCRIPT else spelled(code)


def command_words():
    """For each command of the code the words that are typed before its files."""
    return {
        command: " ".join(re.findall(r'codes "([^"]*)" ∷', typed))
        for command, typed in re.findall(r"^words_of \((\w+) [^)]*\) = (.*)$", GRAMMAR.read_text(encoding="utf-8"), re.M)
    }


def functions():
    """The text of each function of the commands, by its name with its crate; a name stands for those of all crates, too.
    What is done for one kind of a `MadeFile` or of a `Printout` alone is a function of that kind."""
    found = {}
    for path in sorted(path for crate in MAKERS for path in ROOT.glob(f"crates/{crate}/src/**/*.rt")):
        crate = path.relative_to(ROOT).parts[1]
        source = re.sub(r"//.*", "", path.read_text(encoding="utf-8"))
        parts = re.split(r"\bfn (\w+)", source)
        for name, text in zip(parts[1::2], parts[2::2]):
            arms = re.split(r"\b((?:MadeFile|Printout)::\w+) =>", text)
            for key, body in [(name, arms[0]), *zip(arms[1::2], arms[2::2])]:
                for where in (crate, None):
                    found[where, key] = found.get((where, key), "") + body
    return found


def called(crate, text, known):
    """The functions that a text calls, of its own crate where that has one of the name. No method makes a fault's text.
    A conversion calls what is done for the kind that it names."""
    kinds = [f"{KINDS[to]}::{kind}" for to, kind in re.findall(r"\b(File|Report)\((?:\w+::)?([A-Z]\w*)", text)]
    for name in kinds + re.findall(r"(?<![.:\w])\w+(?=\()", text):
        where = crate if (crate, name) in known else None
        if (where, name) in known:
            yield where, name


def printed():
    """Each type of a fault with each command that prints its texts, by the command's words."""
    known = functions()
    work = WORK.read_text(encoding="utf-8")
    for command, words in command_words().items():
        arm = re.search(rf"^ +{command} \{{[^}}]*\}} =>(.*?)(?=^ +[A-Z]\w+ \{{|\Z)", work, re.M | re.S)
        if not arm:
            sys.exit(f"no arm found for {command} in {WORK.relative_to(ROOT)}")
        reached, rest = set(), list(called("xm_commands", arm[1], known))
        while rest:
            function = rest.pop()
            if function not in reached:
                reached.add(function)
                text = known[function]
                rest += called(function[0], text, known)
                if "unmade_by!(alloc, fault, " in text:
                    yield from ((name, words) for name in re.findall(r"\bfault: (\w+Fault)\b", text))


def named(types):
    """Each of these types with each command that its paragraph names."""
    for name, commands in re.findall(r"^Texts of `(\w+)`, for ([^.:;]*)", (ROOT / "docs/ERRORS.md").read_text(encoding="utf-8"), re.M):
        if name in types:
            yield from ((name, words) for words in re.findall(r"`([^`]*)`", commands))


def main():
    told = set(fault_texts()) | set(complaint_texts()) | set(made_texts()) | set(script_texts())
    written = set(rows())
    for name, text in sorted(told - written):
        print(f"no row: {name}: {text}")
    for name, text in sorted(written - told):
        print(f"no text: {name}: {text}")
    print(f"{len(told & written)} texts have a row, {len(told - written)} have none")
    prints = set(printed())
    says = set(named({name for name, text in told}))
    for name, words in sorted(prints - says):
        print(f"not named: {words} prints the texts of {name}")
    for name, words in sorted(says - prints):
        print(f"named: {words} prints no text of {name}")
    print(f"{len(prints & says)} commands are named with the texts that they print, {len(prints - says)} are not")
    return 1 if told != written or prints != says else 0


if __name__ == "__main__":
    sys.exit(main())
