"""What tools/reading reads: the definitions of the crates, in spec files and of types in sources, and what each cites. Paths begin in crates/."""

import re
from functools import lru_cache
from pathlib import Path

NAME = re.compile(r"(?<![\w'.◌-])(?:[^\W\d]|_)[\w'-]*(?:\.(?:[^\W\d]|_)[\w'-]*)*")
IMPORT = re.compile(r"use Rattle\.(\w+)\.specs\.?([\w.-]*?)\.?(?:\{([^}]*)\}|(?: as (\w+))?)[;\s]")


class Item:
    """A definition: its text with the comment above it, the file, and the line."""

    def __init__(self, file, line, text, scope=""):
        self.file, self.line, self.text, self.scope = file, line, text, scope

    def cited(self):
        """The names that the text may cite, without comments, fields and what the clause itself binds."""
        text = re.sub(r"^\s*(--|//).*", "", self.text, flags=re.M)
        if self.file.endswith(".rt"):
            text = "\n".join(re.findall(r"^    ghost .*", text, re.M))
            return names(text, text) - set(re.findall(r"^    (?:ghost |pub(?:\(crate\))? )?(\w+):", self.text, re.M))
        whole = self.scope + "\n" + text
        own = set(re.findall(r"^\s+(?:pub )?([\w']+) : ", text, re.M)) if "record " in text else set()
        parts = re.split(r"\n(?=\s{0,%d}[^\s}])" % (len(self.text) - len(self.text.lstrip())), whole)
        return {name for part in parts for name in names(part, part)} - own


def names(text, bound):
    """The names in a text, and the infix ones, less those that are bound in the other."""
    left = set()
    for one in re.findall(r"[({]([\w' -]+) :", bound) + re.findall(r"λ ([\w' -]+)\.", bound):
        left.update(one.split())
    head = re.match(r"\s*\S+ ([^=:→]*) =", bound)
    if head:
        left.update(name for name in re.findall(r"(?<![\w.])[a-z]\w*(?![\w.]| =)", head[1]))
    text = re.sub(r"(?<=[{;])\s*[\w']+ =(?= )", " ", text)
    text = re.sub(r"^\s*(?:pub )?[\w']+ :(?= )", " ", text, flags=re.M)
    found = {name for name in NAME.findall(text) if name.split(".")[0] not in left}
    signs = re.findall(r"(?<=\s)[^\w\s(){}\[\];,.:λ→=◌]+|>>=(?=\s)", text)
    return found | {f"◌{sign}◌" for sign in signs} | set(re.findall(r"◌\S+◌", text))


def lines_of(file):
    return Path(file).read_text().split("\n")


@lru_cache(None)
def imports(file):
    """What a file imports: for each name the crate, the path in specs/ and the name there. A module is of the name None."""
    found = {}
    for crate, path, listed, other in IMPORT.findall(Path(file).read_text()):
        if not listed:
            found[other or path.split(".")[-1]] = (crate, path, None)
        for one in listed.split(","):
            real, _, new = one.strip().partition(" as ")
            found[new or real] = (crate, path, real)
    return found


@lru_cache(None)
def definitions(file):
    """The definitions of a spec file by name."""
    found, comment, scopes, last, lines = {}, [], [], None, lines_of(file)
    for number, line in enumerate(lines, 1):
        depth = len(line) - len(line.lstrip())
        while line.strip() and scopes and depth <= scopes[-1][0]:
            scopes.pop()
        inner = scopes[-1][0] + 2 if scopes else 0
        start = re.match(r"\s*(?:unfoldable |abbrev |pub |record |data )*([^\s(){}:]+)(?= )(?=(.*))", line)
        keyword = re.match(r"\s*(unfoldable|abbrev|pub|record|data) (?!mod |use )", line)
        if not line.strip():
            comment, last = [], None
        elif re.match(r"(pub )?use |pub mod ", line):
            last = None
        elif re.match(r"\s*module ", line):
            whole = number
            while "where" not in lines[whole - 1]:
                whole += 1
            scopes.append((depth, "\n".join(lines[number - 1:whole])))
            comment, last = [], None
        elif line.lstrip().startswith("--") and depth == inner and (last is None or not keyword):
            comment, last = comment + [line], None
        elif depth == inner and (keyword or (start and start[2].startswith(" : "))) and not line.lstrip().startswith("infix"):
            scope = "\n".join(text for _, text in scopes)
            last = found.setdefault(start[1], Item(file, number - len(comment), "", scope))
            last.text += "\n".join(comment + [line])
            comment = []
        elif last:
            last.text += "\n" + line
    for name, item in list(found.items()):
        if re.search(r"^\s*(pub )?data ", item.text, re.M):
            for variant in re.findall(r"^\s+(\w+) :", item.text, re.M):
                found.setdefault(variant, item)
    return found


@lru_cache(None)
def types(crate):
    """The structs, enums and constants of a crate's source by name."""
    found = {}
    for file in sorted(str(path) for path in Path(crate, "src").rglob("*.rt")):
        lines = lines_of(file)
        for number, line in enumerate(lines):
            start = re.match(r"(?:pub(?:\(crate\))? )?(struct|enum|const) (\w+)", line)
            if not start:
                continue
            last = r".*;$" if start[1] == "const" else r"\}|\);|(pub|struct|enum).*[;}]$"
            end = next((at for at in range(number, len(lines)) if re.match(last, lines[at])), number)
            first = number
            while first and re.match(r"///|#\[", lines[first - 1]):
                first -= 1
            text = "\n".join(one for one in lines[first:end + 1] if not one.startswith("#["))
            found[start[2]] = Item(file, first + 1, text)
    return found


def found_in(crate, path, name):
    """The definition that an import names: an item, or None if it is the kit's or a lemma of the logic."""
    if not Path(crate).is_dir():
        return None
    parts = path.split(".") if path else []
    if parts[:1] == ["declared"]:
        for part in [name] + parts[::-1]:
            if part in types(crate):
                return types(crate)[part]
            if part and part.startswith("out-"):
                return types(crate).get(part[4:])
        return None
    for cut in range(len(parts), 0, -1):
        file = "/".join([crate, "specs"] + parts[:cut]) + ".antt"
        if Path(file).is_file():
            return named_in(file, parts[cut] if cut < len(parts) else name)
    return None


def named_in(file, name):
    if name in definitions(file):
        return definitions(file)[name]
    to = imports(file).get(name)
    return found_in(*to) if to else None


def resolve(item, cited, kit):
    """The definition that a name means in an item; the kit's names are gathered."""
    file = item.file
    known = imports(file)
    first, _, rest = cited.partition(".")
    if file.endswith(".antt") and first in definitions(file):
        return definitions(file)[first]
    if first in known:
        crate, path, name = known[first]
        if name is None:
            name = rest.split(".")[0]
        if Path(crate).is_dir():
            return found_in(crate, path, name)
        kit.setdefault(crate, set()).add(name)
    elif file.endswith(".rt"):
        if first in types(file.split("/")[0]):
            return types(file.split("/")[0])[first]
        crate = rust_imports(file).get(first)
        return types(crate).get(first) if crate else None
    return None


@lru_cache(None)
def rust_imports(file):
    """The crates of this house from which a source file takes names."""
    found = {}
    for crate, listed in re.findall(r"^use (tw\w*|timew\w*)::\{?([^};]*)\}?;", Path(file).read_text(), re.M):
        for one in listed.split(","):
            found[one.strip().split(" as ")[-1].split("::")[-1]] = crate
    return found


def cites_of(item):
    return {resolve(item, name, {}) for name in item.cited()} - {None, item}


def gather(starts):
    """All items below these, with the items that each cites, and the kit's names."""
    cites, kit, left = {}, {}, list(starts)
    while left:
        item = left.pop()
        if item in cites:
            continue
        below = {resolve(item, name, kit) for name in item.cited()} - {None, item}
        cites[item] = below
        left.extend(below)
    return cites, kit


def in_order(cites):
    """The items, each after those that it cites; of those that may come next one of the same file, then one of the lowest crate."""
    rooms = [line.split(":")[0].strip() for line in lines_of("../crates.txt") if line.strip()]
    place = {name: number for number, name in enumerate(rooms)}
    left, out = dict(cites), []
    while left:
        ready = [item for item in left if not left[item] & left.keys()] or list(left)
        file = out[-1].file if out else ""
        item = min(ready, key=lambda one: (one.file != file, place.get(one.file.split("/")[0], 0), one.file, one.line))
        out.append(item)
        del left[item]
    return out


def calls(crate, name):
    """The source files with such a call, and in each the line of it."""
    shapes = [r"    (pub )?fn %s\b"] if crate[:1].isupper() else [r"pub fn %s\b", r" *(pub )?fn %s\b"]
    files = sorted(str(one) for one in Path().glob("*/src/**/*.rt") if not re.match("tests_|transcripts/", str(one)))
    for shape in shapes:
        found = []
        for file in files:
            if crate and not crate[0].isupper() and not file.startswith(crate + "/"):
                continue
            text = Path(file).read_text()
            start = 0
            if crate[:1].isupper():
                home = re.search(r"^(?:impl(?:<.*>)? (?:.* for )?|(?:pub )?trait )%s\b.*\{$" % crate, text, re.M)
                if not home:
                    continue
                start = home.start()
            at = re.compile("^" + shape % name, re.M).search(text, start)
            if at:
                found.append((file, text.count("\n", 0, at.start())))
        if len(found) == 1:
            break
    return found


def contract(file, number):
    """The head of a call, and its clauses: for each the word before it, its name and its text."""
    lines = lines_of(file)
    end = number
    while lines[end].strip() not in ("{", "{}", "}") and not (lines[end].endswith(";") and "{" not in lines[number]):
        end += 1
    parts = re.split(r"\n(?= *(?:requires|ensures)\b)", re.sub(r"^\s*//.*\n", "", "\n".join(lines[number:end]) + "\n", flags=re.M))
    clauses = []
    for part in parts[1:]:
        word, name = re.match(r"\s*(requires|ensures) ?(\w*)", part).groups()
        clauses.append((word, name, part.rstrip()))
    return parts[0].rstrip(), clauses


def fields_below(items, field):
    """The records nearest below these items that have a field of this name, in one file, each with the text of the field."""
    seen, level = set(), list(items)
    while level:
        found = []
        for item in level:
            has = re.search(r"(?:^\s*--.*\n)*^(\s+)pub %s : .*(?:\n\1 .*)*" % field, item.text, re.M)
            if has and "record " in item.text:
                found.append((item, has[0]))
        if found:
            return found
        seen.update(level)
        level = sorted({one for item in level for one in cites_of(item)} - seen, key=lambda one: (one.file, one.line))
    return []
