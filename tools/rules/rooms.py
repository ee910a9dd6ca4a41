#!/usr/bin/env python3
"""Which definitions a public contract rests on, and whether each is in the room in which a reader looks for it.

    tools/rules/rooms.py CRATE FUNCTION [CLAUSE..]    what that function's contract rests on, or these clauses of it: the pages in
                                                      reading order, with how many of their lines, and how many lines in all

As rules: definitions directly in specs/ on which neither a public contract nor a type's model rests; definitions of specs/internal/ on which a
contract or a public type's model does; contracts that rest on something of proofs/; clauses of more than 100 characters that are word for word
in more than three contracts of the product; names that no longer exist, in the crates' READMEs and eight documents.

It reads only the text: names in clauses, followed through the `use` lines of the pages. What a Rust type is (`declared`)
counts as code, and std's words are taken as known."""
import functools
import glob
import os
import re
import sys

TOP = os.path.dirname(os.path.dirname(os.path.dirname(os.path.abspath(__file__))))
WORD = re.compile(r"[^\s(){}\[\],;⟨⟩⟦⟧\"]+")
DECLARATION = re.compile(r"(?:abbrev |opaque |unfoldable |pub |data |record )+([^\s(){}:]+)|([^\s(){}:=]+) : ")
USE = re.compile(r"use (Rattle\.(\w+)\.specs\.[\w.]+?)(?:\.\{([^}]*)\}| as (\w+))(?: as (\w+))?[;\s]")
PUBLIC = re.compile(r"^\s*pub (?:const )?(?:unsafe )?fn (\w+)")
CLAUSE = re.compile(r"^\s*(?:ensures|requires)\*?\s+(?:(\w+)\s)?")
WHOLE_CLAUSE = re.compile(r"^\s*(?:ensures|requires)\*?\s+(?:\w+\s)?(\{.*)")
LONGEST, MOST = 100, 3
QUOTED = re.compile(r"`([^`]+)`")
CITED = re.compile(r"((?:`[\w:]+`(?:, | and )?)+) \(((?:`\w+`(?:, )?)+)\)")
PAGES = re.compile(r"`(cc_\w+)`: ((?:`[A-Z]\w*`(?:, )?)+)")
PROOFS = re.compile(r"use Rattle\.(?!std\.)(\w+)\.proofs\.([\w.]+?)(?:\.\{([^}]*)\}| as (\w+))")


class Page:
    """A page of specs/: its definitions, each with its text and its number of lines, and the names that it brings in."""

    def __init__(self, crate, name, path):
        self.crate, self.name = crate, name
        with open(path, encoding="utf-8") as file:
            self.text = file.read()
        self.names = names_in(self.text)
        self.proved = proved_in(self.text)
        self.items = {}
        item, inside, comment = None, False, []
        for line in self.text.split("\n"):
            bare = line.strip()
            if bare.startswith("-- ORDER "):
                continue
            if bare.startswith("--") or not bare:
                comment = [*comment, line] if bare else []
                continue
            indent = len(line) - len(line.lstrip())
            if indent == 0 and bare.startswith(("module ", "abbrev mutual", "mutual")):
                inside, item, comment = True, None, []
                continue
            if indent == 0 and bare.startswith("use "):
                comment = []
                continue
            if indent == 0:
                inside = inside and not DECLARATION.match(bare)
            found = DECLARATION.match(bare) if indent == 0 or inside and indent == 2 else None
            if found:
                item = self.items.setdefault(found[1] or found[2], [])
                item.extend(comment)
            if item is not None:
                item.append(line)
            comment = []

    def where(self):
        return f"{self.crate}/specs/{self.name.replace('.', '/')}"


def names_in(text):
    """Returns what the use lines of a text bring in: names with the module that has them, and short names of modules."""
    found = {}
    for module, crate, names, short, _ in USE.findall(re.sub(r"\n\s+", " ", text)):
        if short:
            found[short] = (module, None)
        for it in filter(None, (names or "").split(",")):
            name, _, other = it.strip().partition(" as ")
            found[other or name] = (module, name)
    return found


def proved_in(text):
    """Returns the names that a page takes out of proofs/ of this repository, each with the page that has it."""
    found = {}
    for crate, module, names, short in PROOFS.findall(re.sub(r"\n\s+", " ", text)):
        for it in filter(None, [short, *(names or "").split(",")]):
            name, _, other = it.strip().partition(" as ")
            found[other or name] = f"{crate}/proofs/{module.replace('.', '/')}"
    return found


def pages_of(crate):
    pages, top = {}, f"{TOP}/crates/{crate}/specs"
    for at, _, files in os.walk(top):
        for file in sorted(files):
            name = os.path.relpath(f"{at}/{file}", top)[: -len(".antt")].replace("/", ".")
            if file.endswith(".antt") and name not in ("Lib", "internal", "rows"):
                pages[name] = Page(crate, name, f"{at}/{file}")
    return pages


def reading_order(crate):
    with open(f"{TOP}/crates/{crate}/specs/Lib.antt", encoding="utf-8") as file:
        return re.findall(r"^pub mod (\w+)", file.read(), re.M)


def handed_on(crate):
    """Returns the pages of lower crates that a crate passes on, by the name that they have there, each with its own module."""
    with open(f"{TOP}/crates/{crate}/specs/Lib.antt", encoding="utf-8") as file:
        lines = re.findall(r"^pub use (Rattle\.[\w.]+?)(?: as (\w+))?$", file.read(), re.M)
    return {short or module.rpartition(".")[2]: module for module, short in lines}


class Repository:
    def __init__(self):
        with open(f"{TOP}/crates.txt", encoding="utf-8") as file:
            lines = [it.partition("#")[0] for it in file]
        self.crates = [it.partition(":")[0].split()[0] for it in lines if ":" in it]
        self.crates = [it for it in self.crates if os.path.isdir(f"{TOP}/crates/{it}/specs")]
        self.pages = {crate: pages_of(crate) for crate in self.crates}
        self.handed_on = {crate: handed_on(crate) for crate in self.crates}

    def page(self, module):
        """Returns the page of a module's whole name, if it is one of this repository: its own, or one that a crate passes on."""
        found = re.match(r"Rattle\.(\w+)\.specs\.(.+)", module)
        while found and found[2] in self.handed_on.get(found[1], {}):
            found = re.match(r"Rattle\.(\w+)\.specs\.(.+)", self.handed_on[found[1]][found[2]])
        return self.pages.get(found[1], {}).get(found[2]) if found else None

    def named(self, text, names, page=None):
        """Returns the definitions that a text names."""
        found = set()
        for word in WORD.findall(text):
            first, _, rest = word.partition(".")
            if page is not None and first in page.items:
                found.add((page.crate, page.name, first))
            elif first in names:
                module, name = names[first]
                there = self.page(module)
                wanted = name or rest.partition(".")[0]
                if there is not None and wanted in there.items:
                    found.add((there.crate, there.name, wanted))
        return found

    def rests_on(self, begin):
        left, found = list(begin), set()
        while left:
            it = left.pop()
            if it not in found:
                found.add(it)
                page = self.pages[it[0]][it[1]]
                left += self.named("\n".join(page.items[it[2]]), page.names, page)
        return found

    def taken_from_proofs(self, found):
        """Returns which of these definitions name something of proofs/, with the page of it."""
        taken = []
        for it in sorted(found):
            page = self.pages[it[0]][it[1]]
            words = {word.partition(".")[0] for word in WORD.findall("\n".join(page.items[it[2]]))}
            taken += [(it, page.proved[word]) for word in sorted(words & page.proved.keys())]
        return taken

    def handed_out(self, crate):
        """Returns the modules that a crate exports whole, and the names that it exports one by one; None for a program, all of whose
        functions count."""
        if not os.path.isfile(f"{TOP}/crates/{crate}/src/lib.rt"):
            return None, None
        with open(f"{TOP}/crates/{crate}/src/lib.rt", encoding="utf-8") as file:
            text = file.read()
        names = " ".join(a or b for a, b in re.findall(r"pub use [\w:]+?::(?:\{([^}]*)\}|(\w+));", text))
        return set(re.findall(r"^pub mod (\w+);", text, re.M)), set(re.findall(r"\w+", names))

    def contracts(self, crate, function=None, types=False, clauses=(), views=False):
        """Returns the definitions that the public contracts of a crate name: of its functions, or of one, or of these clauses of it; what
        its types are seen as and keep, if that is asked for; or what its public types are seen as."""
        found, (modules, handed) = set(), self.handed_out(crate)
        for at, _, files in os.walk(f"{TOP}/crates/{crate}/src"):
            for file in files:
                with open(f"{at}/{file}", encoding="utf-8") as it:
                    text = it.read()
                whole = modules is None or file == "lib.rt" or os.path.relpath(f"{at}/{file}", f"{TOP}/crates/{crate}/src")[:-3] in modules
                names, name, taking, owner, of_trait, ghost, view = names_in(text), None, False, True, False, False, False
                is_asked, of_trait_only = True, False
                for line in text.split("\n"):
                    block = re.match(r"(?:impl|pub trait|trait)\b(?:<.*?>)?\s*(.*?)\s*\{?$", line)
                    if block:
                        of_trait, of_trait_only = "trait" in line or " for " in line, "trait" in line
                        owner = whole or bool(set(re.findall(r"\w+", block[1])) & handed)
                    elif line.startswith("}"):
                        owner, of_trait, of_trait_only = True, False, False
                    begins = PUBLIC.match(line) or (of_trait or modules is None) and re.match(r"^\s*fn (\w+)", line)
                    if begins or re.match(r"^\s*(pub\(\w+\) )?fn ", line):
                        is_free = not line.startswith(" ")
                        is_public = begins and (whole or begins[1] in handed if is_free else owner)
                        name, taking = begins[1] if is_public else None, False
                    ghost = types and (bool(re.match(r"^\s*ghost (?!use)\w+", line)) or ghost)
                    view = views and owner and not of_trait_only and (bool(re.match(r"^\s*ghost (view|Value)\b", line)) or view)
                    clause = CLAUSE.match(line)
                    is_asked = not clauses or clause[1] in clauses if clause else is_asked
                    taking = bool(clause) or taking and not re.match(r"^\s*[{}]?\s*$", line) and not line.rstrip().endswith("{")
                    if taking and is_asked and name is not None and function in (None, name) and not views or ghost or view:
                        found |= self.named(line, names)
                    ghost = ghost and not line.rstrip().endswith((";", ","))
                    view = view and not line.rstrip().endswith((";", ","))
        return found


def show(repository, crate, function, *clauses):
    found = repository.rests_on(repository.contracts(crate, function, clauses=clauses))
    whole = 0
    for it in repository.crates:
        order = reading_order(it)
        for name in [*order, *sorted(repository.pages[it].keys() - set(order))]:
            page = repository.pages[it].get(name)
            items = [word for word in page.items if (it, name, word) in found] if page else []
            if items:
                lines = sum(len(page.items[word]) for word in items)
                whole += lines
                print(f"{page.where():36}{len(items):4} of {len(page.items):3} definitions, {lines:4} lines")
    print(f"{whole} lines in all")
    apart = [it for it in found if it[1].startswith(("internal", "rows"))]
    for it in sorted(apart):
        print("and apart:", *it)
    taken = repository.taken_from_proofs(found)
    for it, page in taken:
        print("and out of proofs:", *it, "takes from", page)
    return 1 if apart or taken or not found else 0


def clauses_of(path):
    """Yields each clause of a file's contracts on one line, without its braces, with the number of its first line."""
    with open(path, encoding="utf-8") as file:
        lines = file.read().split("\n")
    for at, line in enumerate(lines):
        begins = WHOLE_CLAUSE.match(line)
        text, behind = begins[1] if begins else "", at + 1
        while text.count("{") > text.count("}") and behind < len(lines):
            text, behind = f"{text} {lines[behind].strip()}", behind + 1
        if begins:
            yield at + 1, text.strip()[1:-1].strip()


def repeated_clauses():
    """Returns the long clauses that are in too many contracts of the product's crates, with their places."""
    places = {}
    for at, _, files in os.walk(f"{TOP}/crates"):
        for file in sorted(it for it in files if it.endswith(".rt") and "/crates/cc" in at and "/src" in at and "/out" not in at):
            for line, text in clauses_of(f"{at}/{file}"):
                if len(text) > LONGEST:
                    places.setdefault(text, []).append(f"{os.path.relpath(at, TOP)}/{file}:{line}")
    return {text: found for text, found in places.items() if len(found) > MOST}


@functools.cache
def read_all():
    """Returns the repository, and the definitions on which public contracts rest, public types' models, and types."""
    repository, used, seen, kept = Repository(), set(), set(), set()
    for crate in repository.crates:
        used |= repository.rests_on(repository.contracts(crate))
        seen |= repository.rests_on(repository.contracts(crate, views=True))
        kept |= repository.rests_on(repository.contracts(crate, types=True))
    return repository, used, seen, kept


def rooms():
    """A definition directly in specs/ is one on which a public contract or a type's model rests; a definition of specs/internal/ or
    specs/rows/ is not."""
    repository, used, seen, kept = read_all()
    wrong = []
    for crate in repository.crates:
        for name, page in repository.pages[crate].items():
            is_apart = name.startswith(("internal.", "rows."))
            for item in page.items:
                it = (crate, name, item)
                if is_apart and it in used:
                    wrong.append(f"{page.where()}: {item}: a public contract rests on it")
                elif is_apart and it in seen:
                    wrong.append(f"{page.where()}: {item}: the model of a public type rests on it")
                elif not is_apart and it not in kept:
                    wrong.append(f"{page.where()}: {item}: no public contract rests on it")
    return wrong


def of_proofs():
    """No public contract rests on a definition that takes something from proofs/."""
    repository, used, _, _ = read_all()
    taken = repository.taken_from_proofs(used)
    return [f"{repository.pages[it[0]][it[1]].where()}: {it[2]}: a public contract rests on it, and it takes from {page}" for it, page in taken]


def repetitions():
    """No clause of more than 100 characters is word for word in more than three contracts of the product."""
    return [f"{len(found)} contracts repeat: {text}\n    {' '.join(found)}" for text, found in repeated_clauses().items()]


def words_of_sources():
    """Returns every word of the sources, and of the names of their files."""
    found = set()
    for at, folders, files in os.walk(TOP):
        folders[:] = [it for it in folders if it not in (".git", "out", "target")]
        for file in files:
            found |= set(re.findall(r"\w+", f"{at} {file}"))
            if file.endswith((".rt", ".antt", ".py", ".sh", ".c", ".txt")) or file == "cclib":
                with open(f"{at}/{file}", encoding="utf-8") as it:
                    found |= set(re.findall(r"\w+", it.read()))
    return found


def clause_names_of(crate):
    """Returns the clauses of a crate's functions, by the function's name."""
    found = {}
    for path in glob.glob(f"{TOP}/crates/{crate}/src/**/*.rt", recursive=True):
        name = None
        with open(path, encoding="utf-8") as file:
            for line in file:
                begins = re.match(r"\s*(?:pub(?:\([^)]*\))? )?(?:const )?(?:unsafe )?fn (\w+)", line)
                name = begins[1] if begins else name
                clause = re.match(r"\s*(?:ensures|requires|ghost)\*?\s+(\w+)", line)
                if clause and name:
                    found.setdefault(name, set()).add(clause[1])
    return found


def unknown_in(path, words, pages):
    """Returns what a document names in backquotes that is not there: files, words, clauses of calls, pages of crates."""
    with open(path, encoding="utf-8") as file:
        text = re.sub(r"\s*\n\s*", " ", re.sub(r"^```.*?^```$", "", file.read(), flags=re.M | re.S))
    crate = os.path.basename(os.path.dirname(path))
    roots, unknown = [TOP, f"{TOP}/crates", f"{TOP}/crates/{crate}", f"{TOP}/crates/*"], []
    for quoted in QUOTED.findall(text):
        if quoted.startswith("rt "):
            continue
        for part in re.findall(r"[\w.*-]+(?:/[\w.*-]+)+", quoted):
            if not any(glob.glob(f"{root}/{part}{end}") for root in roots for end in ("", ".antt")):
                unknown.append(part)
        unknown += [it for it in re.findall(r"(?<![\w*])[A-Za-z]\w*(?![\w*])", quoted) if it not in words and not it.endswith("_")]
    for name, there in PAGES.findall(text):
        unknown += [f"{name}: {it}" for it in re.findall(r"\w+", there) if it not in pages.get(name, ())]
    clauses, is_readme = clause_names_of(crate), path.startswith(f"{TOP}/crates/")
    for calls, cited in CITED.findall(text):
        names = [it.rpartition(":")[2] for it in QUOTED.findall(calls)]
        have = set().union(*(clauses.get(it, set()) for it in names))
        is_call = is_readme and all(it.islower() and not os.path.isdir(f"{TOP}/crates/{it}") for it in names)
        if is_call or any(it in clauses for it in names):
            unknown += [f"{', '.join(names)} ({it})" for it in QUOTED.findall(cited) if it not in have]
    return unknown


def documents():
    """What the crates' READMEs and eight documents name in backquotes is there: files, words, clauses of calls, pages of crates."""
    repository, words, wrong = read_all()[0], words_of_sources(), []
    pages = [f"{TOP}/docs/{it}.md" for it in ("ARCHITECTURE", "DECISIONS", "DEVELOPING", "FIT", "PROOFS", "THREADS")]
    pages += [f"{TOP}/CHANGELOG.md", f"{TOP}/CONTRIBUTING.md"]
    for path in [*sorted(glob.glob(f"{TOP}/crates/*/README.md")), *pages]:
        wrong += [f"{os.path.relpath(path, TOP)}: {it} is not there" for it in unknown_in(path, words, repository.pages)]
    return wrong


if __name__ == "__main__":
    if len(sys.argv) < 3:
        sys.exit("tools/rules/rooms.py CRATE FUNCTION [CLAUSE..]")
    sys.exit(show(Repository(), *sys.argv[1:]))
