#!/usr/bin/env python3
"""Checks README.md and docs/ against the repository.

Each example (a line `$ COMMAND` in a code block, with what it prints below it) runs over the built
program and has to print just that. Each name in backticks has to exist: files, crates, functions,
types, clauses, definitions and tests. In docs/PROVED.md a name in parentheses has to be a clause of a
call that the same item names, or a law, a field of a definition or a test.

It prints one line for each document and ends with status 1 if anything failed. First it tries itself
on a document with one wrong example, one wrong name and one wrong clause.
"""

import glob
import os
import re
import signal
import subprocess
import sys

TOP = os.path.dirname(os.path.dirname(os.path.abspath(__file__)))
CRATES = os.path.join(TOP, "crates")
SECONDS = 100

# What stands in backticks and is no name of the repository's own, each with its reason.
EXCEPTIONS = {
    "HANDLES": "the file at the top, without an ending",
    "Threads": "a handle of the language", "Wait": "a handle of the language", "Net": "a handle of the language",
    "Drop": "a trait of the standard library", "Send": "a trait of the standard library",
    "O_NONBLOCK": "a flag of the system", "From": "a trait of the standard library", "Other": "a kind of the standard library's errors",
    "WriteZero": "a kind of the standard library's errors",
    "Sync": "a trait of the standard library", "Debug": "a trait of the standard library",
    "Display": "a trait of the standard library", "Error": "a trait of the standard library",
    "Arc": "a type of the standard library", "Vec": "a type of the standard library",
    "VecDeque": "a type of the standard library", "String": "a type of the standard library",
    "Box": "a type of the standard library", "Option": "a type of the standard library",
    "Result": "a type of the standard library", "Ok": "a variant of the standard library",
    "Err": "a variant of the standard library", "Some": "a variant of the standard library",
    "None": "a variant of the standard library", "AllocError": "a type of the standard library",
    "frames": "a command", "chain": "a command", "relay": "a command", "mill": "a command",
    "requires": "a keyword", "ensures": "a keyword", "self": "a keyword", "impl": "a keyword", "pub mod": "a keyword",
    "&mut": "a keyword", "crates/NAME/must-fail/WHAT.edit": "a pattern", "let _ = &self.codec;": "code",
    "let _tail = self.tailroom();": "code", "old:": "a keyword of edits", "new:": "a keyword of edits", "file:": "a keyword of edits",
    "hex": "a crate of the kit", "itoa": "a crate of the kit", "memchr": "a crate of the kit",
    "clap": "a crate of the kit", "thiserror": "a crate of the kit", "atomic_table": "a crate of the kit",
    "crossbeam_queue": "a crate of the kit", "crossbeam_utils": "a crate of the kit",
    "for_each_mut": "a call of the standard library", "join_mut": "a call of the standard library",
    "circular_buffer": "a crate of the kit",
    "raw": "a word of a command", "upper": "a word of a command", "wait": "a word of a command",
    "LengthDelimitedCodec": "a type of tokio-util", "LinesCodec": "a type of tokio-util",
    "LengthFieldBasedFrameDecoder": "a type of Netty", "LineBasedFrameDecoder": "a type of Netty",
    "async": "a keyword of Rust", "encode_lower": "a definition of the kit", "Mutex": "a type of the standard library",
    "U+FFFD": "a character", "usize": "a type of the language", "u64": "a type of the language",
}

# Words of a command line, texts of the report, patterns: no names.
NO_NAME = [
    re.compile(r"^(rt|python3|apt-get|valgrind|xxd|perf|sh|git|flock|\./yukolese|yukolese)( |$)"),
    re.compile(r"^(frames|chain|relay|mill) "),
    re.compile(r"^-|@"),                                # an option, a subscriber
    re.compile(r"^[\W_]+$"),                            # a sign
    re.compile(r"^rattle-kit-"),                        # the line of `rt version`
    re.compile(r"[=,|]"),                               # words of a codec, terms
    re.compile(r"(^|[ .])[A-Z]{2,}($|[ .])|^[A-Z]$"),   # a text with placeholders
    re.compile(r"^\d"),                                 # a number
    re.compile(r"^#!?\["),                              # an attribute
    re.compile(r"^(not opened|usage|stream|source|sink|limit|memory|report|end)( |$)"),   # a line of a status
    re.compile(r"^\$ "),
]

FN = re.compile(r"^\s*(?:pub(?:\([a-z]+\))? )?(?:unsafe )?fn (\w+)")
BLOCK = re.compile(r"^(\s*)(?:pub(?:\([a-z]+\))? )?(?:unsafe )?(impl|trait|enum|struct)\b(.*)$")
CLAUSE = re.compile(r"^\s*(?:requires|ensures)\*? (\w+) \{")
ALIAS = re.compile(r"^pub type (\w+)(?:<.*>)? = (\w+)<")
ITEM = re.compile(r"^\s*(?:pub(?:\([a-z]+\))? )?(?:mod|type|const|static) (\w+)")
GHOST = re.compile(r"^\s*(?:pub )?ghost (?:also_)?(\w+)\s*[:=]")
FIELD = re.compile(r"^\s+(?:pub(?:\([a-z]+\))? )?(\w+):")
VARIANT = re.compile(r"^    (\w+)(?:[ ({,].*)?$")
DEFINITION = re.compile(r"^\s*(?:abbrev )?pub (?:record |data )?([^\s:(]+)")
CONSTRUCTOR = re.compile(r"^  (\w+) :")


class Names:
    """What the repository's sources name."""

    def __init__(self):
        self.all = set()        # every name
        self.members = set()    # (type or module, name)
        self.clauses = {}       # (crate, function): its clauses
        self.crates = set()
        self.aliases = []       # (name, the type that it stands for)
        self.defined = set()    # definitions of specs/ and their fields
        for crate in sorted(os.listdir(CRATES)):
            self.all.add(crate)
            self.crates.add(crate)
            for path in glob.glob(os.path.join(CRATES, crate, "src", "*.rt")):
                self.read_source(crate, path)
            for kind in ("specs", "proofs"):
                for path in glob.glob(os.path.join(CRATES, crate, kind, "**", "*.antt"), recursive=True):
                    self.read_definitions(path)
            for path in glob.glob(os.path.join(CRATES, crate, "must-fail", "*.edit")):
                self.all.add(os.path.basename(path)[:-len(".edit")])
        for path in glob.glob(os.path.join(TOP, "tests", "*.py")):
            with open(path, encoding="utf-8") as file:
                self.all.update(re.findall(r"^def (\w+)", file.read(), re.M))
        self.read_aliases()

    def read_aliases(self):
        """What a type has, its aliases have, and theirs."""
        for _ in self.aliases:
            for alias, meant in self.aliases:
                self.members.update([(alias, name) for owner, name in self.members if owner == meant])

    def read_source(self, crate, path):
        module = os.path.basename(path)[:-len(".rt")]
        self.all.add(module)
        owner, indent, function = None, "", None
        with open(path, encoding="utf-8") as file:
            for line in file.read().split("\n"):
                block = BLOCK.match(line)
                if block:
                    head = re.sub(r"^<.*?>(?= )", "", block.group(3)).strip().split(" for ")[-1]
                    name = re.match(r"(?:\w+::)*(\w+)", head)
                    owner, indent, function = name and name.group(1), block.group(1), None
                    if owner:
                        self.add(owner, crate, module)
                elif owner and line == indent + "}":
                    owner = None
                alias = ALIAS.match(line)
                if alias:
                    self.aliases.append(alias.groups())
                found = FN.match(line)
                if found:
                    function = found.group(1)
                    self.add(function, crate, module, owner)
                    self.clauses.setdefault((crate, function), set())
                clause = CLAUSE.match(line)
                if clause and function:
                    self.clauses[crate, function].add(clause.group(1))
                    self.all.add(clause.group(1))
                for pattern in (ITEM, GHOST, FIELD):
                    item = pattern.match(line)
                    if item:
                        self.add(item.group(1), crate, module, owner)
                variant = VARIANT.match(line)
                if owner and variant:
                    self.add(variant.group(1), crate, module, owner)

    def add(self, name, *owners):
        self.all.add(name)
        for owner in owners:
            self.members.add((owner, name))

    def read_definitions(self, path):
        self.all.add(os.path.basename(path)[:-len(".antt")])
        with open(path, encoding="utf-8") as file:
            for line in file.read().split("\n"):
                for pattern in (DEFINITION, CONSTRUCTOR):
                    found = pattern.match(line)
                    if found:
                        self.all.add(found.group(1))
                        self.defined.add(found.group(1))

    def is_path(self, token):
        places = ["", "crates", os.path.join("crates", "*"), "docs", "tests",
                  os.path.join("crates", "*", "src"), os.path.join("crates", "*", "specs")]
        return any(glob.glob(os.path.join(TOP, place, token)) for place in places)

    def knows(self, token):
        """Whether what stands in backticks exists."""
        if token in EXCEPTIONS or any(pattern.search(token) for pattern in NO_NAME):
            return True
        if "/" in token or re.search(r"\.(rt|antt|py|md|txt|edit)$", token):
            return self.is_path(token)
        token = re.sub(r"^&(mut )?|\(.*\);?$|<.*>$", "", token)
        parts = re.split(r"::|\.", token)
        if not all(part in self.all or part in EXCEPTIONS for part in parts):
            return False
        pairs = zip(parts, parts[1:]) if "::" in token else []
        return all((owner, name) in self.members or owner in EXCEPTIONS for owner, name in pairs)


def spans(text):
    """The parts of a document that are no code block, and its code blocks."""
    prose, blocks, block, fenced = [], [], [], False
    for line in text.split("\n"):
        if line.startswith("```"):
            fenced = not fenced
            if not fenced:
                blocks.append(block)
                block = []
        elif fenced:
            block.append(line)
        elif line.startswith("    "):
            block.append(line[4:])
        else:
            if block and line.strip():
                blocks.append(block)
                block = []
            prose.append(line)
    if block:
        blocks.append(block)
    return "\n".join(prose), blocks


ERROR_LINE = re.compile(r"^(.*?)\s+\(on standard error(?:; status (\d+))?\)$")


def examples(blocks):
    """Each example: the command, and the output, the standard error and the status that stand below it."""
    for block in blocks:
        command, out, err, status = None, [], [], 0
        for line in block + ["$ "]:
            if line.startswith("$ "):
                if command:
                    yield command, out, err, status
                command, out, err, status = line[2:], [], [], 0
                continue
            error = ERROR_LINE.match(line)
            if error:
                err.append(error.group(1))
                status = int(error.group(2) or 0)
            elif line.strip() and command:
                out.append(line)


def run_example(command, out, err, status):
    """What is wrong with an example, or nothing."""
    with subprocess.Popen(["sh", "-c", command], cwd=TOP, stdin=subprocess.DEVNULL, stdout=subprocess.PIPE,
                          stderr=subprocess.PIPE, start_new_session=True) as run:
        try:
            printed = [text.decode(errors="replace").split("\n")[:-1] for text in run.communicate(timeout=SECONDS)]
        except subprocess.TimeoutExpired:
            os.killpg(run.pid, signal.SIGKILL)
            return [f"`{command}` isn't done after {SECONDS} seconds"]
    if (*printed, run.returncode) != (out, err, status):
        return [f"`{command}` prints {printed[0]}, {printed[1]}, status {run.returncode};"
                f" the document has {out}, {err}, status {status}"]
    return []


def wrong_names(prose, names):
    return [f"`{token}` is no name of the repository" for token in re.findall(r"`([^`\n]+)`", prose)
            if not names.knows(token)]


HEADING = re.compile(r"^\*\*((?:`\w+`(?:, | and )?)+)\*\*", re.M)


def wrong_clauses(prose, names):
    """Names in parentheses that are no clause of a call in the same item, and nothing else that carries a claim.

    A call is looked for in the crates of the heading above its item, and in those that the item itself names."""
    wrong, crates = [], set()
    functions = {function for _, function in names.clauses}
    for item in re.split(r"\n(?=[-#|*]|\n)", prose.split("\n## What is only tested")[0]):
        heading = HEADING.search(item)
        if heading:
            crates = set(re.findall(r"`(\w+)`", heading.group(1))) & names.crates
        tokens = re.findall(r"`([^`]+)`", item)
        calls = {part for token in tokens for part in re.split(r"::|\.", token)}
        here = crates | (calls & names.crates)
        clauses = set().union(*(names.clauses.get((crate, call), set()) for crate in here for call in calls))
        for group in re.findall(r"\((`[^()]*`)\)", item):
            for token in re.findall(r"`([^`]+)`", group):
                parts = re.split(r"::|\.", token)
                carried = parts[0] in clauses or parts[-1] in names.defined or parts[-1] in functions
                if not carried and token not in EXCEPTIONS and not any(p.search(token) for p in NO_NAME):
                    wrong.append(f"`{token}` is no clause of a call in: {' '.join(item.split())[:90]}..")
    return wrong


def wrong_in(text, names, proved):
    prose, blocks = spans(text)
    wrong = wrong_names(prose, names)
    if proved:
        wrong += wrong_clauses(prose, names)
    for example in examples(blocks):
        wrong += run_example(*example)
    return wrong


TRIED = """# A document with mistakes

**`relay_app`**: a crate.
- `run_plain` answers (`usage`), and (`no_such_clause`). `LengthDecoder::no_such_call` isn't there.

**`buffered_io`**: another crate.
- `run_plain` counts what failed (`report_faults`).

    $ printf '\\000' | ./yukolese frames length,field=1,strip=1
    F 0 0 61
    end 1
"""


def tries_itself(names):
    """What the check doesn't see in a document with three mistakes."""
    wrong = "\n".join(wrong_in(TRIED, names, True))
    wanted = ["no_such_call` is no name", "no_such_clause` is no clause", "report_faults` is no clause",
              "prints ['F 0 0 -', 'end 1']"]
    return [f"not seen: {text}" for text in wanted if text not in wrong]


def main():
    names = Names()
    documents = [os.path.join(TOP, "README.md"), *sorted(glob.glob(os.path.join(TOP, "docs", "*.md")))]
    failed = 0
    for path in [None, *documents]:
        if path is None:
            what, wrong = "a document with mistakes", tries_itself(names)
        else:
            with open(path, encoding="utf-8") as file:
                what, wrong = os.path.relpath(path, TOP), wrong_in(file.read(), names, path.endswith("PROVED.md"))
        failed += bool(wrong)
        print(f"documents: {what}: {'FAILED' if wrong else 'ok'}")
        for line in wrong:
            print(f"  {line}")
    print(f"documents: {len(documents) + 1 - failed} passed, {failed} failed")
    return 1 if failed else 0


if __name__ == "__main__":
    sys.exit(main())
