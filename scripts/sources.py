"""What the sources of the crates declare, for the checks. It reads the layout that `rt fmt` gives, and knows
no more of the language than that: a function ends at the brace that stands under its first line."""
import os
import re

TOP = os.path.dirname(os.path.dirname(os.path.abspath(__file__)))

FUNCTION = re.compile(r"^( *)(pub |pub\(crate\) )?(?:const )?fn (\w+)")
CLAUSE = re.compile(r"^ *ensures (?:(\w+) )?\{")


class Function:
    """A function of a crate: where it stands, its clauses, and the lines of its signature and body."""

    def __init__(self, crate, file, scope, name, is_public):
        self.crate, self.file, self.name, self.is_public = crate, file, name, is_public
        self.owner, self.trait, self.is_test = scope.owner, scope.trait, scope.is_test
        self.head, self.module = scope.head, None
        self.clauses, self.signature, self.body = [], [], None

    @property
    def path(self):
        """Its name from outside, as `fk_core::Tables::row` or `fk_model::laws::pairs_are_sorted`."""
        return "::".join(part for part in (self.crate, self.module, self.owner, self.name) if part)

    @property
    def is_law(self):
        """Whether it does nothing, so that its contract is all that it is for."""
        return self.body is not None and not "".join(self.body).strip()


class Scope:
    """Where a line stands: in an `impl` of a type or in a trait, with its first line, or among tests."""

    def __init__(self, owner=None, trait=None, is_test=False, head=""):
        self.owner, self.trait, self.is_test, self.head = owner, trait, is_test, head


def read(path):
    with open(os.path.join(TOP, path), encoding="utf-8") as file:
        return file.read()


def crates():
    """The crates of crates.txt, each with what it stands on."""
    listed = {}
    for line in read("crates.txt").splitlines():
        head, colon, rest = line.split("#")[0].partition(":")
        if colon:
            listed[head.split()[0]] = rest.split()
    return listed


def is_program(crate):
    return os.path.exists(os.path.join(TOP, "crates", crate, "src", "main.rt"))


def source_files(crate):
    """The files of a crate's src/ and of the folders in it."""
    for folder, folders, names in os.walk(os.path.join(TOP, "crates", crate, "src")):
        folders.sort()
        for name in sorted(names):
            if name.endswith(".rt"):
                yield os.path.relpath(os.path.join(folder, name), TOP)


def modules(crate):
    """The names of a crate's modules, by its files."""
    return {os.path.basename(file)[: -len(".rt")] for file in source_files(crate)}


def root_of(crate):
    """The text of a library's first file, or nothing for a program."""
    root = os.path.join("crates", crate, "src", "lib.rt")
    return read(root) if os.path.exists(os.path.join(TOP, root)) else ""


def used(text):
    """The names that a file hands on."""
    return {name for use in re.findall(r"^pub use ([^;]*);", text, re.M) for name in re.findall(r"\w+", use)}


def public_modules(crate):
    """The public modules of a library, each with the names that it hands out."""
    modules = re.findall(r"^pub mod (\w+);", root_of(crate), re.M)
    return {module: names_of_module(crate, module) for module in modules}


def exported(crate):
    """The names that a library hands out, with those of its public modules."""
    return used(root_of(crate)).union(*public_modules(crate).values())


def names_of_module(crate, module):
    """What a public module hands out, with the files of its folder, if it has one."""
    names = set()
    for file in source_files(crate):
        if file.endswith("/src/%s.rt" % module) or "/src/%s/" % module in file:
            names |= used(read(file)) | set(re.findall(r"^pub fn (\w+)", read(file), re.M))
    return names


def functions(crate):
    """The functions of a crate, in the order of its files."""
    for_tests = set()
    for file in source_files(crate):
        for_tests |= set(re.findall(r"#\[cfg\(test\)\]\n *mod (\w+);", read(file)))
    found = []
    for file in source_files(crate):
        is_test = os.path.basename(file)[: -len(".rt")] in for_tests
        found += functions_in(crate, file, is_test)
    at_root, public = used(root_of(crate)), public_modules(crate)
    for function in found:
        if function.owner is None and function.name not in at_root:
            function.module = next((m for m in public if function.name in public[m]), None)
    return found


def functions_in(crate, file, is_test):
    found, scope, lines = [], Scope(is_test=is_test), iter(read(file).splitlines())
    for line in lines:
        scope = scope_at(line, scope, is_test)
        head = FUNCTION.match(line)
        if head:
            indent, access, name = head.groups()
            is_public = access == "pub " or scope.trait is not None
            found.append(Function(crate, file, scope, name, is_public))
            take_function(found[-1], indent, line, lines)
    return found


def scope_at(line, scope, is_test):
    """The scope behind a line that begins or ends one."""
    if line == "}":
        return Scope(is_test=is_test)
    if line.startswith("impl"):
        return Scope(*names_of_impl(line), is_test=is_test, head=line)
    trait = re.match(r"(?:pub )?trait (\w+)", line)
    if trait:
        return Scope(trait.group(1), trait.group(1), is_test)
    if re.match(r"mod \w+ \{", line):
        return Scope(is_test=True)
    return scope


def names_of_impl(line):
    """The type of an `impl` line, and the trait, if there is one, without their parameters. A slice goes by
    the type of its items."""
    head = re.sub(r"\s*\{.*", "", line)
    if head.startswith("impl<"):
        depth, at = 1, len("impl<")
        while depth:
            depth += (head[at] == "<") - (head[at] == ">" and head[at - 1] != "-")
            at += 1
        head = head[at:]
    else:
        head = head[len("impl"):]
    trait, is_trait, owner = head.partition(" for ")
    names = [re.search(r"(\w+)\]?\s*(?:<.*)?$", part.strip()).group(1) for part in (trait, owner) if part]
    return (names[1], names[0]) if is_trait else (names[0], None)


def braces_left(code):
    """How many more braces a line opens than it closes, outside strings."""
    code = re.sub(r'"(?:\\.|[^"\\])*"', '""', code)
    return code.count("{") - code.count("}")


def take_function(function, indent, line, lines):
    """Takes the lines of a function: its signature, its contract, and its body, if it has one."""
    is_signed, depth = False, 0
    while True:
        code = line.split("//")[0].rstrip()
        if re.match(r" *(requires|ensures)\b", code):
            is_signed = True
        if is_signed and code != indent + "{":
            depth += braces_left(code)
        clause = CLAUSE.match(code)
        if clause:
            function.clauses.append(clause.group(1) or "ensures")
        if not is_signed:
            function.signature.append(code)
        if code == indent + "{" or (not is_signed and code.endswith("{")):
            break
        if code.endswith(";") and depth == 0:
            return
        if code == indent + "{}":
            function.body = []
            return
        line = next(lines)
    function.body = []
    for line in lines:
        if line == indent + "}":
            return
        function.body.append(line)
