"""The wrong bodies of tests/wrong, what each loses, how it is put in, and who shows it; and the functions in which they stand."""
import glob
import os
import re
import tomllib

from sources import ROOT, clause_in, crates, files, placed_signatures, text_of

FOLDER = "tests/wrong"
ONLY = "the only one"


class Function:
    """A function with a body: its file, its name with its type before it, and where it begins (with its attributes), is named and ends."""

    def __init__(self, file, text, at, owner, name, head):
        self.file, self.name, self.head = file, f"{owner}::{name}" if owner else name, head
        indent = re.match(r" *", text[at:]).group()
        ends = re.search(r"^%s\}$" % indent, text[at:], re.M)
        self.start, self.end = at, at + ends.end() if ends else at
        # its attributes stand right over it, one a line
        while above := re.search(r"^ *#\[.*\n\Z", text[:self.start], re.M):
            self.start = above.start()
        self.plain, self.named = name, at + re.search(r"\bfn (?=%s\b)" % name, text[at:]).end()
        self.text = text[self.start:self.end]

    def clauses(self):
        return re.findall(r"^ *ensures (?:(\w+) )?\{", self.head, re.M)

    def module(self):
        """The modules that it stands in, from the crate's root on: of a method those of its type, wherever its `impl` is."""
        crate, owner = self.file.split("/")[1], self.name.rpartition("::")[0]
        found = (f"crates/{crate}/{file}" for file in files(crate, "src", ".rt") if owner and is_declared(owner, crate, file))
        return module_of(next(found, self.file)).split("::")[:-1]


def functions_of(file):
    text = text_of(file)
    for at, _, owner, name, head in placed_signatures(text):
        yield Function(file, text, at, owner, name, head)


def is_declared(name, crate, file):
    return re.search(r"^(?:pub(?:\(\w+\))? )?(?:struct|enum|union|trait) %s\b" % name, text_of("crates", crate, file), re.M)


def function_at(file, old):
    """The function in whose text another text stands, or None."""
    return next((function for function in functions_of(file) if old in function.text), None)


def pairs_of_edit(crate, name):
    """The changes of an edit of must-fail/."""
    path, pairs, file = os.path.join("crates", crate, "must-fail", name + ".edit"), [], None
    for line in text_of(path).splitlines() if os.path.isfile(os.path.join(ROOT, path)) else []:
        kind, _, text = line.partition(": ")
        if kind == "file":
            file = text.strip()
        elif kind == "old":
            pairs.append({"file": file, "old": text})
        elif kind == "new":
            pairs[-1]["new"] = text
    return pairs


class Change:
    """One text of a crate's file in the place of another one."""

    def __init__(self, crate, given):
        self.file, self.old, self.new = f"crates/{crate}/{given['file']}", given["old"], given["new"]

    def fault(self):
        if not os.path.isfile(os.path.join(ROOT, self.file)):
            return f"there is no {self.file}"
        found = text_of(self.file).count(self.old)
        return None if found == 1 else f"an old text stands in {self.file} {found} times"


class Body:
    """A body that is put in the place of a right one: a wrong one, or, where it loses nothing, a harmless one."""

    def __init__(self, crate, number, given):
        self.crate, self.number, self.given = crate, number, given
        self.loses = given.get("loses")
        pairs = given.get("change", [given] if "old" in given else [])
        if "edit" in given and "clause" in given:
            pairs = pairs_of_edit(crate, given["edit"])
        self.changes = [Change(crate, {"file": given.get("file"), **pair}) for pair in pairs]
        self.edit, self.function, self.clause = given.get("edit"), None, None
        self.tests, _, self.test = given.get("test", "").partition(" ")
        if "clause" in given:
            self.function, _, clause = given["clause"].partition(": ")
            self.clause = clause or ONLY
        elif "function" in given:
            self.function = given["function"]

    def stands_in(self):
        """The function whose body it is, or None. An edit may change more than that: what its body calls, and the imports."""
        if not self.edit:
            return function_at(self.changes[0].file, self.changes[0].old) if self.changes else None
        there = (function_at(change.file, change.old) for change in self.changes)
        return next((function for function in there if function and function.name == self.function), None)

    def put_into(self, function):
        """The function's text with this body, and under another name."""
        text = function.text
        for change in self.changes:
            if change.old in function.text:
                text = text.replace(change.old, change.new)
        return text

    def outside(self, function):
        """The changes that stand outside of the function."""
        return [change for change in self.changes if change.old not in function.text]

    def faults(self):
        yield from filter(None, (change.fault() for change in self.changes))
        kinds = [kind for kind in ("clause", "test", "edit", "function") if kind in self.given]
        if len(kinds) != 1 and kinds != ["clause", "edit"] or ("function" in self.given) == bool(self.loses):
            yield "it names not one of a clause, a test and an edit, and no edit with its clause"
        elif self.edit and not os.path.isfile(os.path.join(ROOT, "crates", self.crate, "must-fail", self.edit + ".edit")):
            yield f"there is no edit {self.edit}"
        elif self.edit and not self.clause:
            return
        elif not self.changes:
            yield "it has no body"
        elif self.test:
            found = tests_named(self.tests, self.test)
            if len(found) != 1:
                yield f"there are {len(found)} tests {self.test} in {self.tests}"
        else:
            yield from self.faults_of_clause()

    def faults_of_clause(self):
        found = self.stands_in()
        if not found or found.name != self.function or (not self.edit and self.outside(found)):
            yield f"an old text is not in the body of {self.function}"
        elif self.clause and self.clause not in [clause or ONLY for clause in found.clauses()]:
            yield f"{self.function} has no clause {self.clause}"


def module_of(file):
    """The modules of a source file, from its crate's root on, each with `::` after it."""
    path = re.sub(r"(/mod|/lib|/main)?\.rt$", "", file.split("src/", 1)[1])
    return "".join(part + "::" for part in path.split("/") if part not in ("lib", "main"))


def tests_named(crate, name):
    """The tests of a crate that have this name, or these modules and this name: each with all its modules."""
    there = files(crate, "src", ".rt") if crate in crates() else []
    tests = [module_of(file) + test for file in there for test in re.findall(r"#\[test\]\n *fn (\w+)", text_of("crates", crate, file))]
    return [test for test in tests if ("::" + test).endswith("::" + name)]


class Wrong:
    """The wrong bodies of a crate, and the harmless ones of its functions with clauses. What is said over the table is `says`. Where the
    bodies were not all run yet (`unrun`) the crate keeps the page that it has."""

    def __init__(self, crate, given):
        self.crate = crate
        self.says = " ".join(text for one in given if (text := one.get("says")))
        self.is_unrun = any(one.get("unrun") for one in given)
        self.bodies = [Body(crate, number, row) for number, row in enumerate((row for one in given for row in one.get("body", [])), 1)]
        self.harmless = [Body(crate, 0, row) for one in given for row in one.get("harmless", [])]

    def faults(self):
        for body in self.bodies + self.harmless:
            for fault in body.faults():
                yield f"{body.loses or 'harmless: ' + body.function}: {fault}"
        edits = {os.path.basename(file)[:-len(".edit")] for file in files(self.crate, "must-fail", ".edit")}
        for edit in sorted(edits - {body.edit for body in self.bodies}):
            yield f"no row of the edit {edit}"
        if any(body.clause for body in self.bodies) and not self.harmless:
            yield "it has clauses and no harmless body"


def data_of(crate):
    """The data of a crate, from its file or its several files, or None."""
    names = sorted(glob.glob(os.path.join(ROOT, FOLDER, crate + ".toml")) + glob.glob(os.path.join(ROOT, FOLDER, crate + ".*.toml")))
    return Wrong(crate, [tomllib.loads(text_of(name)) for name in names]) if names else None


def all_data():
    """The data of each crate that has some."""
    return [data for data in map(data_of, crates()) if data]
