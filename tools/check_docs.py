#!/usr/bin/env python3
"""Checks the documents of this repository against the repository itself.

    python3 tools/check_docs.py [PROGRAM]

PROGRAM is the path of a built `cmmc`. Without it the commands in documents are not run.

Of each Markdown file that git knows, or that is new and not ignored:

- lines: none is over 160 columns;
- links: the file, and the heading behind `#`, are there;
- paths: each file or folder in backticks (`crates/X/specs/Y.antt`, or short `X/specs/Y`) is there;
- places: each name of a row of definitions.md and of the glossary is declared in the files of its `place`;
- names: `NAME` of `CRATE` (and `A`, `B` and `C` of `CRATE`) stands in that crate, and so do the clauses and laws of a
  crate in proved.md; NAME (`PATH`) and `NAME` in `PATH` in that file; and each other name in backticks that has an
  underscore or is in CamelCase stands somewhere in the crates;
- tables: columns of crates name crates; a table of all crates has them in the order of crates.txt; the lists of
  architecture.md have each once, after what it uses, and what a crate rests on is there and below it; a crate may be
  described in proved.md in place of the second list;
- the README, or a page that it leads to, links each page; commands.md has each text of examples/;
- outputs: each fenced block of the kind `console` is what its commands print. A line `$ COMMAND` is run by bash at the
  top folder, with `cmmc` on the path (one that ends in a backslash goes on), one shell for a document; the lines up to
  the next one are what it prints, both outputs together. A remark may stand behind two spaces and `# `; blanks at the
  ends of lines do not count.

A page that speaks of names of other projects says so in a comment: `<!-- names of others: a b c -->`.

It prints one line for each finding, and at the end what was counted. The status is 1 where there is a finding.
"""

import os
import re
import subprocess
import sys
import tempfile

TOP = subprocess.run(
    ["git", "-C", os.path.dirname(os.path.abspath(__file__)), "rev-parse", "--show-toplevel"],
    capture_output=True, text=True, check=True).stdout.strip()
WIDTH = 160
SECONDS = 120

findings = []
counts = {}


def find(document, line, what):
    findings.append(f"{document}:{line}: {what}")


def count(what, n=1):
    counts[what] = counts.get(what, 0) + n


def read(path):
    with open(os.path.join(TOP, path), encoding="utf-8") as f:
        return f.read()


def git_files(*patterns):
    out = subprocess.run(
        ["git", "-C", TOP, "ls-files", "-z", "--cached", "--others", "--exclude-standard", "--", *patterns],
        capture_output=True, text=True, check=True).stdout
    return sorted({p for p in out.split("\0") if p and os.path.exists(os.path.join(TOP, p))})


# ---- the repository

def crates_of_list():
    """The crates of crates.txt in their order, each with what it uses (kit's crates left out)."""
    uses = {}
    for line in read("crates.txt").splitlines():
        line = line.split("#")[0].strip()
        if line:
            name, _, rest = line.partition(":")
            uses[name.strip()] = rest.split()
    return {c: [u for u in us if u in uses] for c, us in uses.items()}


CRATES = crates_of_list()


def below_of():
    below = {}
    for c, us in CRATES.items():
        below[c] = set(us).union(*[below.get(u, set()) for u in us]) if us else set()
    return below


BELOW = below_of()

WORD = re.compile(r"[A-Za-z_][A-Za-z0-9_']*")
SOURCES = [p for p in git_files("crates") if re.search(r"\.(antt|rt|edit)$", p)]
TEXTS = {p: read(p) for p in SOURCES}
WORDS_OF = {p: set(WORD.findall(t)) for p, t in TEXTS.items()}
ALL_FILES = git_files()
ALL_PATHS = set(ALL_FILES)
for path in ALL_FILES:
    while "/" in path:
        path = path.rsplit("/", 1)[0]
        ALL_PATHS.add(path)

WORDS_OF_CRATE = {c: set() for c in CRATES}
KNOWN = set(CRATES)
for path, words in WORDS_OF.items():
    crate = path.split("/")[1]
    if crate in WORDS_OF_CRATE:
        WORDS_OF_CRATE[crate] |= words
        stem = os.path.basename(path).rsplit(".", 1)[0]
        WORDS_OF_CRATE[crate].add(stem)
        WORDS_OF_CRATE[crate].update(path.split("/")[2:-1])
    KNOWN |= words
for path in ALL_FILES:
    KNOWN.update(re.split(r"[/.]", path))
# the tables of rows by their names
for path in git_files("crates/*/stdin"):
    WORDS_OF_CRATE[path.split("/")[1]] |= set(re.findall(r"^= (\w+)$", read(path), re.M))
for line in read("crates.txt").splitlines():
    KNOWN |= set(WORD.findall(line))
# words of texts of the language, of images and of rows
for path in git_files("examples", "crates", "bench"):
    if re.search(r"\.(cmm|c|S|s)$|/args$|/stdin$|/stdout$", path):
        try:
            KNOWN |= set(WORD.findall(read(path)))
        except UnicodeDecodeError:
            pass


def declares(path, name):
    """The file declares the name: as a definition, a field, a constructor, a clause or an item of code."""
    text = TEXTS.get(path)
    if text is None or name not in WORDS_OF[path]:
        return False
    n = re.escape(name)
    if path.endswith(".antt"):
        pattern = (r"^\s*(?:(?:abbrev|mutual|postulate)\s+)*(?:pub\s+)?(?:(?:abbrev|record|data|mod|module|opaque)\s+)*"
                   + n + r"(?![\w'])(?:\s+[^=\n]*)?(?::|\s*$|\s*\(|\s*\{)")
        first = re.search(pattern, text, re.M)
        # a name among several of one type, or one that stands over a line of its own
        return bool(first or re.search(r"\bpub\s+(?:\w+\s+)*" + n + r"(?![\w'])", text)
                    or re.search(r"^pub use .*[{,]\s*" + n + r"\s*[,}]", text, re.M))
    pattern = (r"\b(?:fn|struct|enum|trait|const|static|type|mod)\s+" + n + r"\b"
               r"|^\s*" + n + r"\s*(?:[,({]|$|:)"
               r"|\b(?:ensures|requires|invariant)\s+" + n + r"\b"
               r"|^\s*pub(?:\([a-z]+\))?\s+" + n + r"\s*:")
    return bool(re.search(pattern, text, re.M))


def resolve(token, folder=None):
    """What a path in backticks names: paths from the top, or none."""
    token = token.rstrip("/")
    bases = [""]
    if folder:
        bases.append(folder + "/")
    bases += ["crates/", "docs/"]
    for base in bases:
        for ending in ("", ".antt", ".rt", ".edit", ".md", ".cmm"):
            if base + token + ending in ALL_PATHS:
                return base + token + ending
    return None


FOLDERS = {p.rsplit("/", 1)[-1] for p in ALL_PATHS if p not in set(ALL_FILES)}
FIRST = {p.split("/")[0] for p in ALL_PATHS} | set(CRATES) | FOLDERS
ENDING = re.compile(r"\.(antt|rt|md|cmm|txt|py|edit|sh)$")


def is_path(token):
    """The words of a path, and not an example of something else with a slash."""
    return PATH.match(token) is not None and (token.split("/")[0] in FIRST or ENDING.search(token) is not None
                                              or "/specs" in token or "/src" in token or "/proofs" in token)


def stands(token, crate):
    """A path in backticks is there: from the top, in the crate that is named behind it, or as a kind of folder."""
    if resolve(token, f"crates/{crate}" if crate in CRATES else None) is not None:
        return True
    if token.split("/")[0] in ("src", "specs", "proofs", "must-fail"):
        return token.rstrip("/") in FOLDERS or any(p.endswith("/" + token) for p in ALL_PATHS)
    return token.endswith("/") and token[:-1] in FOLDERS


def sources_under(path):
    if path in TEXTS:
        return [path]
    return [p for p in SOURCES if p.startswith(path + "/")]


# ---- a document

TICKED = re.compile(r"`([^`\n]+)`")
PATH = re.compile(r"^(?:\.?[A-Za-z0-9_][\w.\-]*/)+[\w.\-]*$")
IDENT = re.compile(r"^[A-Za-z_][A-Za-z0-9_']*$")
CAMEL = re.compile(r"^[A-Z][a-z0-9]+(?:[A-Z][a-z0-9]*)+$")


def blocks(text):
    """The lines outside fenced blocks (a fenced line as an empty one), and the fenced blocks with their kinds."""
    outside, fenced = [], []
    kind, start, lines = None, 0, []
    for number, line in enumerate(text.splitlines(), 1):
        fence = re.match(r"^\s*```(.*)$", line)
        if fence and kind is None:
            kind, start, lines = fence.group(1).strip(), number, []
            outside.append("")
        elif fence:
            fenced.append((kind, start, lines))
            kind = None
            outside.append("")
        elif kind is not None:
            lines.append(line)
            outside.append("")
        else:
            outside.append(line)
    return outside, fenced, kind is not None


def anchor_of(heading):
    heading = re.sub(r"[`*]", "", heading.strip().lower())
    heading = re.sub(r"\[([^\]]*)\]\([^)]*\)", r"\1", heading)
    return re.sub(r"[^\w\- ]", "", heading).replace(" ", "-")


def anchors(path):
    outside, _, _ = blocks(read(path))
    return {anchor_of(re.sub(r"^#+\s*", "", l)) for l in outside if re.match(r"^#+\s", l)}


def check_lines(document, text):
    for number, line in enumerate(text.splitlines(), 1):
        count("lines")
        if len(line) > WIDTH:
            find(document, number, f"a line of {len(line)} columns")


def check_links(document, outside):
    targets = set()
    for number, line in enumerate(outside, 1):
        for target in re.findall(r"\[[^\]]*\]\(([^)\s]+)\)", line):
            if re.match(r"^[a-z]+:", target):
                continue
            count("links")
            path, _, anchor = target.partition("#")
            here = os.path.normpath(os.path.join(os.path.dirname(document), path)) if path else document
            if here not in ALL_PATHS:
                find(document, number, f"link to {target}: not there")
                continue
            targets.add(here)
            if anchor and here.endswith(".md") and anchor not in anchors(here):
                find(document, number, f"link to {target}: no such heading")
    return targets


def paragraphs(outside):
    """Paragraphs and items of lists, with the number of each one's first line and the place of each line in it."""
    parts, current, start = [], [], 0
    for number, line in enumerate(outside, 1):
        if not line.strip() or re.match(r"^\s*(?:[-*]|\d+\.)\s", line) or line.startswith("|"):
            if current:
                parts.append((start, current))
            current, start = ([line], number) if line.strip() else ([], number)
        else:
            if not current:
                start = number
            current.append(line)
    if current:
        parts.append((start, current))
    return parts


def others_of(text):
    names = set()
    for words in re.findall(r"<!--\s*names of others:(.*?)-->", text, re.S):
        names |= set(words.split())
    return names


def check_names(document, text, outside):
    others = others_of(text)
    for number, line in enumerate(outside, 1):
        for token in TICKED.findall(line):
            if is_path(token) and "//" not in token:
                count("paths")
                behind = re.search(re.escape(f"`{token}`") + r" of `([a-z0-9_]+)`", line)
                if not stands(token, behind.group(1) if behind else None) and token not in others:
                    find(document, number, f"no file `{token}`")
            elif IDENT.match(token) and ("_" in token.strip("_") or CAMEL.match(token)):
                count("names")
                if token not in KNOWN and token not in others:
                    find(document, number, f"`{token}` stands nowhere in the crates")
    for start, lines in paragraphs(outside):
        joined = " ".join(l.strip() for l in lines)
        # `A`, `B` and `C` of `CRATE`
        for match in re.finditer(r"((?:`[^`]+`(?:, | and |, and ))*`[^`]+`) of `([a-z][a-z0-9_]*)`", joined):
            crate = match.group(2)
            if crate not in CRATES:
                continue
            for token in TICKED.findall(match.group(1)):
                name = token.split(".")[-1]
                if not IDENT.match(name) or name in CRATES or name in others:
                    continue
                count("names of a crate")
                if name not in WORDS_OF_CRATE[crate]:
                    find(document, start, f"`{token}` is not in crate `{crate}`")
        # `A` (`PATH`), `A` in `PATH`
        for match in re.finditer(r"`([^`]+)`(?: \(| in )`((?:crates/)?[a-z][\w]*/[\w./]+)`", joined):
            name, path = match.group(1).split(".")[-1], resolve(match.group(2))
            if path is None or not IDENT.match(name):
                continue
            count("names of a file")
            if not any(name in WORDS_OF[p] for p in sources_under(path)):
                find(document, start, f"`{name}` is not in `{match.group(2)}`")


def check_diagrams(document, fenced):
    """`LAW (CRATE)` and `CRATE: NAME` in the labels of a Mermaid diagram."""
    for kind, start, lines in fenced:
        if kind != "mermaid":
            continue
        for number, line in enumerate(lines, start + 1):
            pairs = [(n, c) for n, c in re.findall(r"([A-Za-z_]+) \(([a-z_0-9]+)\)", line)]
            pairs += [(n, c) for c, n in re.findall(r"\b([a-z_0-9]+): ([a-z_]+)\b", line)]
            for name, crate in pairs:
                if crate in CRATES and "_" in name:
                    count("names of a crate")
                    if name not in WORDS_OF_CRATE[crate]:
                        find(document, number, f"`{name}` is not in crate `{crate}`")


def check_places(document, outside):
    """Rows of a document: a line `- `NAME`, ..` and below it `  - place: `PATH`, ..`."""
    header, header_line = None, 0
    numbered = list(enumerate(outside, 1))
    index = 0
    while index < len(numbered):
        number, line = numbered[index]
        if line.startswith("- "):
            header, header_line = line[2:], number
            while index + 1 < len(numbered) and re.match(r"^  [^ \-]", numbered[index + 1][1]):
                index += 1
                header += " " + numbered[index][1].strip()
        elif re.match(r"^  - place: ", line) and header is not None:
            place = line
            while index + 1 < len(numbered) and re.match(r"^    \S", numbered[index + 1][1]):
                index += 1
                place += " " + numbered[index][1].strip()
            check_place(document, header_line, header, place)
            header = None
        index += 1


def check_place(document, number, header, place):
    if header.startswith("**"):
        header = header.split(": ", 1)[0]
    header = re.sub(r" of `[a-z_0-9]+`|\(of `[a-z_0-9]+`\)|\([^)]*\)", "", header)
    names = [t for t in TICKED.findall(header) if IDENT.match(t.split(".")[-1])]
    files, folder = [], None
    for token in TICKED.findall(place):
        if "/" in token:
            path = resolve(token)
            if path is None:
                find(document, number, f"place `{token}` is not there")
                continue
            folder = path if path not in TEXTS else path.rsplit("/", 1)[0]
            files += sources_under(path)
        else:
            path = resolve(token, folder) if folder else None
            if path is not None and path.startswith(folder or "-"):
                files += sources_under(path)
            elif token not in KNOWN:
                find(document, number, f"place `{token}` is not there")
    for name in names:
        count("names at their place")
        if not any(declares(p, name.split(".")[-1]) for p in files):
            find(document, number, f"`{name}` is not declared at its place")


def check_fault_rows(document, outside):
    """`crate, definition: `CRATE`, `NAME`; ..`, and the last cells of a table with that heading."""
    for start, lines in paragraphs(outside):
        joined = " ".join(l.strip() for l in lines)
        rows = re.findall(r"crate, definition: (.*)", joined)
        if joined.startswith("| G"):
            rows.append(joined.rstrip("| ").rsplit("|", 1)[-1])
        for row in rows:
            crate = None
            for token in TICKED.findall(row):
                if token in CRATES:
                    crate = token
                elif crate is not None and IDENT.match(token):
                    count("names of a crate")
                    if token not in WORDS_OF_CRATE[crate]:
                        find(document, start, f"`{token}` is not in crate `{crate}`")


def check_proved():
    """In proved.md the clauses of a crate, and the laws in brackets behind a crate, stand in that crate."""
    document = "docs/proved.md"
    outside, _, _ = blocks(read(document))
    crates = []
    for start, lines in paragraphs(outside):
        joined = " ".join(l.strip() for l in lines)
        head = re.match(r"^- ((?:`[a-z0-9_]+`(?:, )?)+)(?: \((?:code|rules|rows)\))?(: |$)", joined)
        texts = []
        if head:
            crates = [c for c in TICKED.findall(head.group(1)) if c in CRATES]
            texts = re.findall(r"\(([^()]*)\)", joined) if head.group(2) else []
        elif joined.startswith("- clause:"):
            texts = [joined]
        for text in texts:
            text = re.sub(r"(?:`[^`]+`(?:, | and )?)+ of `[^`]+`", "", text)
            for token in TICKED.findall(text):
                for name in re.split(r"[.:]+", token):
                    if crates and IDENT.match(name) and name not in CRATES:
                        count("names of a crate")
                        if not any(name in WORDS_OF_CRATE[c] for c in crates):
                            find(document, start, f"`{token}` is not in crate {' or '.join(crates)}")


# ---- the tables of crates

def check_long_tables(document, outside):
    """A table of more than 100 crates has all of them in the order of crates.txt, but those that the page says, in a
    paragraph `Not in this table: ..` before it, are not in it."""
    order = {name: place for place, name in enumerate(CRATES)}
    left_out, rows = set(), []
    for start, lines in paragraphs(outside) + [(0, [""])]:
        row = re.match(r"^\| `([a-z0-9_]+)` \|", lines[0])
        if row and row.group(1) in order:
            rows.append((row.group(1), start))
        elif not lines[0].startswith("|"):
            if len(rows) > 100:
                count("rows of long tables", len(rows))
                for (before, _), (name, at) in zip(rows, rows[1:]):
                    if order[name] < order[before]:
                        find(document, at, f"crate `{name}` stands after `{before}`")
                for name in set(order) - {name for name, _ in rows} - left_out:
                    find(document, rows[0][1], f"crate `{name}` is not in the table")
            if rows:
                left_out, rows = set(), []
            if lines[0].startswith("Not in this table:"):
                left_out = set(TICKED.findall(" ".join(lines)))


def check_columns(document, outside):
    """In a table the columns `crate`, `crate here`, `code` and `rules` name crates; what else they name is in brackets."""
    columns = []
    for number, line in enumerate(outside, 1):
        if not line.startswith("|"):
            columns = []
            continue
        cells = [cell.strip() for cell in line.strip().strip("|").split("|")]
        if number == 1 or not outside[number - 2].startswith("|"):
            columns = [i for i, cell in enumerate(cells) if cell in ("crate", "crate here", "code", "rules")]
            continue
        for i in columns:
            for token in TICKED.findall(re.sub(r"\([^()]*\)", "", cells[i])) if i < len(cells) else []:
                count("crates in tables")
                if token not in CRATES:
                    find(document, number, f"`{token}` is no crate of crates.txt")


def check_order(document, verb, lines):
    """Each crate comes after what it uses, of those that are there; `lines` are in the order of the list."""
    places = {name: place for place, name in enumerate(lines)}
    for name, place in places.items():
        late = [u for u in CRATES.get(name, ()) if places.get(u, -1) > place]
        if late:
            find(document, lines[name], f"crate `{name}` {verb} before what it uses: {' '.join(late)}")


def check_tables():
    document = "docs/architecture.md"
    outside, _, _ = blocks(read(document))
    begin = next(i for i, l in enumerate(outside) if l.strip() == "## The crates")
    # the list by kinds
    listed = []
    i = begin + 1
    while not outside[i].startswith("- "):
        i += 1
    while outside[i].startswith("- ") or outside[i].startswith("  "):
        body = outside[i]
        if body.startswith("- "):
            body = body.split(":", 1)[1] if ":" in body else body
            if body.strip().startswith("`") is False and ":" in body:
                body = body.rsplit(":", 1)[1]
        listed += [(t, i + 1) for t in TICKED.findall(body)]
        i += 1
    seen = {}
    for name, number in listed:
        if name not in CRATES:
            find(document, number, f"`{name}` is no crate of crates.txt")
        elif name in seen:
            find(document, number, f"crate `{name}` stands twice")
        else:
            seen[name] = number
    for name in CRATES:
        count("crates")
        if name not in seen:
            find(document, begin + 1, f"crate `{name}` is not in the list")
    check_order(document, "stands", seen)
    # what each takes and gives: there, or in proved.md beside what is proved of it
    described = check_described(document, outside, begin, {})
    described.update(check_described("docs/proved.md", blocks(read("docs/proved.md"))[0], 0, described))
    for name in CRATES:
        if name not in described:
            find(document, begin + 1, f"crate `{name}` is not described")
    for name in CRATES:
        if f"crates/{name}" not in ALL_PATHS:
            find("crates.txt", 1, f"crate `{name}` has no folder")
    for path in {p.split("/")[1] for p in ALL_FILES if p.startswith("crates/")}:
        if path not in CRATES:
            find("crates.txt", 1, f"folder crates/{path} is no crate")


def check_described(document, outside, begin, before):
    """The crates that a page describes, each as `- `CRATE` (KIND): ..`, with the line; none of them is in `before`."""
    described = {}
    for start, lines in paragraphs(outside):
        if start <= begin or not lines[0].startswith("- "):
            continue
        joined = " ".join(l.strip() for l in lines)
        head = re.match(r"- ((?:`[a-z0-9_]+`(?:, )?)+) \((code|rules|rows)\): ", joined)
        if not head:
            continue
        names = TICKED.findall(head.group(1))
        for name in names:
            if name not in CRATES:
                find(document, start, f"`{name}` is no crate of crates.txt")
            if name in described or name in before:
                find(document, start, f"crate `{name}` is described twice")
            described[name] = start
        rests = re.search(r"Rests on (.*?)\.(?:\s|$)", joined)
        if rests:
            groups = rests.group(1).split(";")
            groups = groups if len(groups) == len(names) else [rests.group(1)] * len(names)
            for name, group in zip(names, groups):
                for used in TICKED.findall(group):
                    # a kit's crate stands in crates.txt, but on no line of its own
                    if used not in CRATES and used not in KNOWN:
                        find(document, start, f"crate `{name}` rests on `{used}`, which is not there")
                    elif used in CRATES and name in BELOW and not any(
                            used in BELOW[n] for n in names if n in BELOW):
                        find(document, start, f"crate `{name}` does not use `{used}`")
    check_order(document, "is described", described)
    return described


# ---- outputs

def without_remark(line):
    return re.sub(r"\s{2,}# .*$", "", line).rstrip()


END = "\x1e"


def commands_of(document, fenced):
    """The commands of a document in their order: the line of each, it, and what it is to print."""
    commands = []
    for kind, start, lines in fenced:
        if kind != "console":
            continue
        if not lines or not lines[0].startswith("$ "):
            find(document, start, "a block of commands that begins with none")
            continue
        i = 0
        while i < len(lines):
            at = start + 1 + i
            command = lines[i][2:]
            while command.endswith("\\") and i + 1 < len(lines):
                i += 1
                command = command[:-1] + lines[i].strip()
            command = without_remark(command)
            i += 1
            wanted = []
            while i < len(lines) and not lines[i].startswith("$ "):
                wanted.append(without_remark(lines[i]))
                i += 1
            while wanted and not wanted[-1]:
                wanted.pop()
            commands.append((at, command, wanted))
    return commands


def check_outputs(document, fenced, folder):
    """One shell for all commands of a document, so that what one sets another has."""
    commands = commands_of(document, fenced)
    if not commands:
        return
    environment = dict(os.environ, PATH=folder + os.pathsep + os.environ["PATH"], LC_ALL="C.UTF-8")
    script = "".join(f"{command}\nprintf '\\x1e'\n" for _, command, _ in commands)
    try:
        run = subprocess.run(
            ["bash", "-c", script], cwd=TOP, env=environment, stdin=subprocess.DEVNULL,
            stdout=subprocess.PIPE, stderr=subprocess.STDOUT, timeout=SECONDS)
    except subprocess.TimeoutExpired:
        find(document, commands[0][0], f"its commands take more than {SECONDS} seconds")
        return
    outputs = run.stdout.decode("utf-8", "replace").split(END)
    for (at, command, wanted), output in zip(commands, outputs):
        count("commands")
        got = [l.rstrip() for l in output.splitlines()]
        while got and not got[-1]:
            got.pop()
        count("lines of output", len(got))
        for k in range(max(len(wanted), len(got))):
            w = wanted[k] if k < len(wanted) else None
            g = got[k] if k < len(got) else None
            if w != g:
                find(document, at, f"`{command}` prints, as line {k + 1}, {g!r} and not {w!r}")
                break
    if len(outputs) != len(commands) + 1:
        find(document, commands[0][0], f"{len(commands)} commands, and {len(outputs) - 1} of them ended")


# ---- all of it

def main(arguments):
    if len(arguments) > 1:
        print(__doc__)
        return 2
    documents = [p for p in git_files("*.md") if "/must-fail/" not in p]
    targets = {}
    with tempfile.TemporaryDirectory() as folder:
        if arguments:
            program = os.path.abspath(arguments[0])
            if not os.access(program, os.X_OK):
                print(f"{arguments[0]}: no program")
                return 2
            os.symlink(program, os.path.join(folder, "cmmc"))
        for document in documents:
            count("documents")
            text = read(document)
            outside, fenced, is_open = blocks(text)
            if is_open:
                find(document, len(outside), "a fenced block is not closed")
            check_lines(document, text)
            targets[document] = check_links(document, outside)
            check_names(document, text, outside)
            check_places(document, outside)
            check_fault_rows(document, outside)
            check_diagrams(document, fenced)
            check_columns(document, outside)
            check_long_tables(document, outside)
            if arguments:
                check_outputs(document, fenced, folder)
    check_tables()
    check_proved()
    listed = read("docs/commands.md")
    for path in git_files("examples/*.cmm"):
        if path.count("/") == 1 and f"`{os.path.basename(path)}`" not in listed:
            find("docs/commands.md", 1, f"{path} is not in the table of examples")
    reached, left = set(), ["README.md"]
    while left:
        document = left.pop()
        if document not in reached:
            reached.add(document)
            left += [t for t in targets.get(document, ()) if t.endswith(".md")]
    for document in documents:
        if document not in reached:
            find(document, 1, "no page that the README leads to links it")
    for line in findings:
        print(line)
    print(", ".join(f"{n} {what}" for what, n in counts.items()) + f"; {len(findings)} findings")
    if not arguments:
        print("no program was named: no command was run")
    return 1 if findings else 0


if __name__ == "__main__":
    sys.exit(main(sys.argv[1:]))
