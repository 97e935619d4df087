"""Reads which definitions the public contracts of the crates cite, and what those cite in turn."""

import dataclasses
import pathlib
import re

NAME = r"[^\W\d][\w'-]*"
IMPORT = re.compile(r"(?:ghost )?(pub )?use Rattle\.(\w+)\.specs\.([\w.]+)\.\{([^}]*)\}")
ITEM = re.compile(rf"(?:(abbrev|unfoldable)\s+)?(pub\s+)?(?:(record|data)\s+)?({NAME})")
# what a line of a file of definitions may begin with beside a definition and its equations
OTHER = re.compile(r"(?:pub )?(?:use|mod|open|syntax|ruleset)\s")


@dataclasses.dataclass
class Definition:
    """A definition of a specs/ file: its name, the words above it, its text and the names that it imports."""

    crate: str
    file: str
    name: str
    comment: str
    text: str = ""
    cites: set = dataclasses.field(default_factory=set)
    cited_by: list = dataclasses.field(default_factory=list)

    @property
    def key(self):
        return self.crate, self.file, self.name


@dataclasses.dataclass
class Call:
    """A public call with the text of its clauses."""

    crate: str
    name: str
    clauses: str
    imports: dict


def imports_of(text):
    """What a file imports from definitions: by each name, the crate and file where it stands."""
    found = {}
    for _, crate, file, names in IMPORT.findall(text):
        for name in re.split(r"[,\s]+", names):
            if name:
                found[name] = (crate, file, name)
    return found


def passed_on_by(path, crate):
    """What a file imports and gives on: each name as it is found there, and where it stands."""
    passed = "\n".join(match.group() for match in IMPORT.finditer(path.read_text(encoding="utf-8")) if match.group(1))
    return {(crate, path.stem, name): key for name, key in imports_of(passed).items()}


def words(text):
    """The names in a clause or a definition, without comments, strings, projections and the fields of records."""
    return set(re.findall(NAME, re.sub(r"--[^\n]*|\"[^\"]*\"|(?<=[\w)])\.[a-z]\w*|(?<=[{;])\s*\w+\s*=", " ", text)))


def maker_of(block, found):
    """What a private definition that directly follows a record and makes it of its parts says: what the record says."""
    first = block.splitlines()[0]
    if found and " record " in f" {found[-1].text.splitlines()[0]} " and "pub " not in first:
        if re.search(rf"→ {found[-1].name}$", first):
            return f"`{found[-1].name}` of its parts: {found[-1].comment}"
    return ""


def definitions_of(path, crate):
    """The definitions of one file, in their order, each with the comment that stands directly above it, if one does."""
    text = path.read_text(encoding="utf-8")
    found, comment = [], []
    for block in re.split(r"\n(?=[^\s}])", text):
        if block.startswith("--"):
            comment.append(block.lstrip("- ").strip())
            if block.endswith("\n"):  # an empty line, so the comment is of nothing
                comment = []
            continue
        item = ITEM.match(block)
        if item and not OTHER.match(block):
            if item.group(1) or item.group(3) or block.startswith("pub "):
                said = " ".join(comment) or maker_of(block, found)
                found.append(Definition(crate, path.stem, item.group(4), said, block))
            elif found:
                found[-1].text += "\n" + block  # an equation of the definition above
        comment = []
    local = {definition.name: definition.key for definition in found}
    known = {**imports_of(text), **local}
    for definition in found:
        definition.cites = {known[word] for word in words(definition.text) if word in known} - {definition.key}
    return found


def without_comments(text):
    return re.sub(r"//[^\n]*", "", text)


def balanced(text, begin):
    """The place after the brace that closes the one at `begin`."""
    depth = 0
    for place in range(begin, len(text)):
        depth += {"{": 1, "}": -1}.get(text[place], 0)
        if depth == 0:
            return place + 1
    return len(text)


def clauses_at(text, place):
    """The clauses of a function whose name ends at `place`, and the place of its body's first brace or its end."""
    found = []
    while place < len(text):
        match = re.compile(r"\b(requires|ensures)\b[^{;]*|[{;]").search(text, place)
        if not match:
            break
        if not match.group(1):
            return " ".join(found), match.start()
        end = balanced(text, match.end())
        found.append(text[match.end() : end])
        place = end
    return " ".join(found), place


def calls_of(text, crate, public, imports):
    """The public calls of a file: functions and methods that are `pub`, methods of public traits, and of public types'
    traits.
    """
    found, place = [], 0
    pattern = re.compile(r"\b(?:(impl)\b([^{;]*)\{|(pub )?trait (\w+)[^{]*\{|(pub )?(?:const )?fn (\w+))")
    while True:
        match = pattern.search(text, place)
        if not match:
            return found
        if match.group(1):
            end = balanced(text, match.end() - 1)
            head = re.sub(r"<[^<>]*>", "", re.sub(r"<[^<>]*>", "", match.group(2)))
            trait, _, owner = head.rpartition(" for ")
            owner = re.match(r"\s*(\w+)", owner).group(1)
            if public(owner):
                found += methods(text[match.end() : end], crate, owner, bool(trait.strip()), imports)
            place = end
        elif match.group(4):
            end = balanced(text, match.end() - 1)
            if match.group(3) and public(match.group(4)):
                found += methods(text[match.end() : end], crate, match.group(4), True, imports)
            place = end
        else:
            clauses, begin = clauses_at(text, match.end())
            if (match.group(5) or public is every) and public(match.group(6)):
                found.append(Call(crate, match.group(6), clauses, imports))
            place = balanced(text, begin) if text[begin : begin + 1] == "{" else begin + 1


def methods(text, crate, owner, all_public, imports):
    """The methods in a block, and what it says of the values that clauses see."""
    found, place = [], 0
    for head, body in re.findall(r"ghost (\w+)\s*[=:]\s*(\{[^}]*\})", text):
        if head not in ("view", "invariant", "inverse"):
            found.append(Call(crate, owner, body, imports))
    for match in re.finditer(r"(pub(?:\([^)]*\))? )?(?:const )?fn (\w+)", text):
        if match.start() < place:
            continue
        clauses, begin = clauses_at(text, match.end())
        if all_public or match.group(1) == "pub ":
            found.append(Call(crate, f"{owner}::{match.group(2)}", clauses, imports))
        place = balanced(text, begin) if text[begin : begin + 1] == "{" else begin
    return found


def every(_):
    return True


def public_calls(top, crate):
    """The public calls of a crate; of a program all of its functions."""
    source = top / "crates" / crate / "src"
    if not (source / "lib.rt").exists():
        texts = [(path, every) for path in sorted(source.glob("*.rt"))]
    else:
        lib = without_comments((source / "lib.rt").read_text(encoding="utf-8"))
        whole = set(re.findall(r"pub mod (\w+)", lib))
        names = {
            name
            for group in re.findall(r"pub use \w+(?:::\w+)*::(\{[^}]*\}|\w+)", lib)
            for name in re.findall(r"\w+", group)
        }
        texts = [
            (path, every_public if path.stem in whole else names.__contains__) for path in sorted(source.rglob("*.rt"))
        ]
    found = []
    for path, public in texts:
        if path.stem != "tests":
            text = without_comments(path.read_text(encoding="utf-8"))
            found += calls_of(text, crate, public, imports_of(text))
    return found


def every_public(_):
    return True


def crates(top):
    lines = (top / "crates.txt").read_text(encoding="utf-8").splitlines()
    return [re.match(r"\w+", line).group() for line in lines if re.match(r"\w+[^:]*:", line)]


class Citations:
    """All definitions of the repository, and which of them public clauses cite."""

    def __init__(self, top):
        self.definitions, self.calls, self.passed_on = {}, [], {}
        for crate in crates(top):
            for path in sorted((top / "crates" / crate / "specs").glob("*.antt")):
                if path.stem != "Lib":
                    self.definitions.update({definition.key: definition for definition in definitions_of(path, crate)})
                    self.passed_on.update(passed_on_by(path, crate))
            self.calls += public_calls(top, crate)
        for call in self.calls:
            for key in self.cited(call):
                if call.name not in self.definitions[key].cited_by:
                    self.definitions[key].cited_by.append(call.name)

    def cited(self, call):
        """What the clauses of a call cite by themselves."""
        keys = {self.home(call.imports[word]) for word in words(call.clauses) if word in call.imports}
        return [key for key in keys if key in self.definitions]

    def home(self, key):
        """Where a name stands that files may pass on."""
        while key in self.passed_on:
            key = self.passed_on[key]
        return key

    def closure(self, calls):
        """What clauses cite, with what that cites in turn."""
        reached, waiting = set(), [key for call in calls for key in self.cited(call)]
        while waiting:
            key = waiting.pop()
            if key not in reached and key in self.definitions:
                reached.add(key)
                waiting += map(self.home, self.definitions[key].cites)
        return reached
