"""Which functions of the libraries the programs reach, by the names in their sources. A method is looked for
at the type of what stands before its dot, where that can be told from the line, the signature or a struct;
where it can't, every method of the name counts as reached. So what is told as not reached may be relied on
more than what isn't told."""
import re

import sources


class Program:
    """All functions, and the structs by whose fields a receiver's type is found."""

    def __init__(self, with_tests):
        self.below = sources.crates()
        found = [f for crate in self.below for f in sources.functions(crate)]
        self.functions = [f for f in found if with_tests or not f.is_test]
        self.methods, self.free = {}, {}
        for f in self.functions:
            table = self.methods if f.owner else self.free
            table.setdefault(f.name, []).append(f)
        self.owners = {f.owner for f in self.functions if f.owner}
        self.traits = {f.trait for f in self.functions if f.trait and f.trait == f.owner}
        self.fields, self.parts, self.imports, self.implemented, self.aliases = {}, {}, {}, {}, {}
        for crate in self.below:
            for file in sources.source_files(crate):
                self.read_file(crate, file)

    def read_file(self, crate, file):
        text = without_notes(sources.read(file))
        for name, fields in re.findall(r"\b(?:struct|enum) (\w+)[^;{(]*\{(.*?)^\}", text, re.M | re.S):
            found = re.findall(r"^ *(?:pub(?:\(crate\))? )?(\w+): (.*),$", fields, re.M)
            self.fields.setdefault(name, {}).update(found)
            self.parts.setdefault(name, set()).update(re.findall(r"\b[A-Z]\w*", fields))
        for name, kind in re.findall(r"^(?:pub(?:\(crate\))? )?type (\w+)[^=;]* = ([^;]*);", text, re.M):
            self.aliases[name] = set(re.findall(r"\w+", kind))
        for line in re.findall(r"^impl.* for .*", text, re.M):
            owner, trait = sources.names_of_impl(line)
            self.implemented.setdefault(owner, set()).add(trait)
        for trait, above in re.findall(r"\btrait (\w+)[^:{]*: ([^{]*)\{", text):
            self.implemented.setdefault(trait, set()).update(re.findall(r"\w+", above))
        imports = self.imports.setdefault(file, {})
        here = {"crate", "super", "self", *sources.modules(crate)}
        for root, names in re.findall(r"^\s*use (\w+)::([^;]*);", text, re.M):
            for name in re.findall(r"\w+", names):
                imports[name] = crate if root in here else root

    def named(self, function, name):
        """The free functions that a name may mean where this function stands."""
        found = self.free.get(name, [])
        here = [f for f in found if f.file == function.file]
        crate = self.imports[function.file].get(name)
        return here or [f for f in found if f.crate == crate]

    def named_in(self, function, module, name):
        """The free functions that a path of a module, or of a crate, and a name means."""
        found = self.free.get(name, [])
        return [f for f in found if f.crate == module or f.file.endswith("/%s/src/%s.rt" % (function.crate, module))]

    def methods_of(self, owners, name):
        """The methods of a name of these types, or those that their traits give them."""
        traits = set().union(*(self.implemented.get(owner, set()) for owner in owners))
        found = self.methods.get(name, [])
        return [f for f in found if f.owner in owners] or [f for f in found if f.owner in traits]

    def visible(self, function, name):
        """The methods of a name, of the crates that this function's crate stands on."""
        crates = {function.crate, *self.below[function.crate]}
        return [f for f in self.methods.get(name, []) if f.crate in crates]


def without_notes(text):
    """The text without comments and without what stands in strings."""
    text = re.sub(r'b?"(?:\\.|[^"\\])*"', '""', text)
    text = re.sub(r"b?'(?:\\.|[^'\\])'", "0", text)
    return re.sub(r"//[^\n]*", "", text)


class Body:
    """One function's body, and what its names may stand for: sets of names of types."""

    def __init__(self, program, function):
        self.program, self.function = program, function
        self.text = without_notes("\n".join(function.body or []))
        self.signature = without_notes(" ".join(function.signature))
        self.bounds = {
            name: set(re.findall(r"\b[A-Z]\w*", bound))
            for name, bound in re.findall(r"\b([A-Z]\w*): ([\w:+ ]+)", function.head + " " + self.signature)
        }
        self.parameters = {
            name: self.types_in(kind)
            for name, kind in re.findall(r"\b([a-z_]\w*): ((?:[^,<>]|<[^()]*?>)+)", self.signature)
        }

    def types_in(self, text):
        """The types that a type is made of."""
        words = re.findall(r"\b[A-Za-z]\w*", text)
        return set().union(*(self.meant(word) for word in words))

    def meant(self, word):
        """What the name of a type stands for here: the traits of a type parameter, or itself, with the types
        that it is another name of."""
        if word == "Self":
            return {self.function.owner}
        return self.bounds.get(word, {word} | self.program.aliases.get(word, set()))

    def calls(self):
        """The functions that the body may call."""
        found = set()
        for owner, name in re.findall(r"\b([A-Z]\w*)(?:::<[^>]*>)?::([a-z_]\w*)", self.text):
            found |= set(self.program.methods_of(self.meant(owner), name))
        for name in re.findall(r"(?<![\w.])(?:\.\.)?([a-z_]\w*)\b(?!\s*:[^:])", self.text):
            found |= set(self.program.named(self.function, name))
        for module, name in re.findall(r"\b([a-z_]\w*)::([a-z_]\w*)", self.text):
            found |= set(self.program.named_in(self.function, module, name))
        for match in re.finditer(r"\.\s*([a-z_]\w*)(?:::<[^>]*>)?\(", self.text):
            kinds = self.kinds_before(match.start())
            if kinds:
                found |= set(self.program.methods_of(kinds, match.group(1)))
            else:
                found |= set(self.program.visible(self.function, match.group(1)))
        return found

    def kinds_before(self, end, names_until=None):
        """The types that what stands before a dot may have, by names that were bound until a place. Nothing
        is known where there is none."""
        steps, at = [], end
        while True:
            at = len(self.text[:at].rstrip())
            if self.text[at - 1 : at] == "?":
                at -= 1
                continue
            if self.text[at - 1 : at] in (")", "]"):
                opening = self.opening(at - 1)
                is_call = self.text[at - 1] == ")"
                word = re.search(r"([\w:]*\w)?(?:::<[^>]*>)?$", self.text[:opening])
                at = word.start() if is_call and word.group(1) else opening
                steps.append((word.group(1) if is_call else None, is_call))
                if not is_call:
                    continue
            else:
                word = re.search(r"(\w+|\"\")$", self.text[:at])
                if not word:
                    return set()
                at = word.start()
                steps.append((word.group(1), False))
            before = self.text[:at].rstrip()
            if not before.endswith(".") or before.endswith(".."):
                break
            at = len(before) - 1
        return self.kinds_of(list(reversed(steps)), at if names_until is None else names_until)

    def opening(self, closing):
        """The place of the bracket that a closing one answers."""
        depth = 0
        for at in range(closing, -1, -1):
            depth += (self.text[at] in ")]") - (self.text[at] in "([")
            if depth == 0:
                return at
        return 0

    def kinds_of(self, steps, at):
        (root, is_call), rest = steps[0], steps[1:]
        if root is None:
            return set()
        if is_call:
            owner, _, name = root.rpartition("::")
            of_module = owner in self.program.imports[self.function.file] and owner.islower()
            owners = self.meant(owner.rpartition("::")[2]) if owner and not of_module else set()
            called = self.program.methods_of(owners, name) or self.program.named(self.function, name)
            kinds = self.results_of(called) or owners
        elif root == '""' or root[0].isdigit():
            kinds = {"str"}
        else:
            kinds = {self.function.owner} if root == "self" else self.kinds_of_name(root, at)
        for name, is_call in rest:
            if name is None:
                continue
            if is_call:
                called = self.program.methods_of(kinds, name)
                # A method of std's on a container may give what is in it.
                others = kinds - {function.owner for function in called}
                kinds = self.results_of(called) | (kinds if others else set())
            else:
                kinds = set().union(*(self.types_in(self.program.fields.get(k, {}).get(name, "")) for k in kinds))
        return kinds

    def results_of(self, functions):
        kinds = set()
        for function in functions:
            result = " ".join(function.signature).partition("->")[2]
            kinds |= self.types_in(result.replace("Self", function.owner or "Self"))
        return kinds

    def kinds_of_name(self, name, at):
        """What a local name may be: by the last `let`, `match`, `for` or closure before it that has it."""
        binding = re.compile(
            r"\blet (?P<let>[^=;]*\b%s\b[^=;]*)= |\bfor (?P<for>[^;{]*\b%s\b[^;{]*) in |\bmatch |\|(?P<of>[^|]*\b%s\b[^|]*)\|"
            % (name, name, name)
        )
        for match in reversed(list(binding.finditer(self.text, 0, at))):
            if match.group("of"):
                call = re.search(r"\.\s*\w+\($", self.text[: match.start()].rstrip())
                return self.with_parts(self.kinds_before(call.start(), call.start())) if call else set()
            if match.group("let") and ":" in match.group("let"):
                return self.types_in(match.group("let").partition(":")[2])
            if match.group().startswith("match"):
                if not binds(self.text[match.end() : at].partition("{")[2], name):
                    continue
            return self.with_parts(self.kinds_at(match.end(), match.start()))
        return self.parameters.get(name, set())

    def kinds_at(self, start, names_until):
        """The types of the expression that begins here."""
        text = self.text[start:]
        depth, end = 0, len(text)
        for at, c in enumerate(text):
            depth += (c in "([") - (c in ")]")
            if depth < 0 or (depth == 0 and (c in ";{" or text[at:].startswith(" else"))):
                end = at
                break
        head = text[:end].rstrip()
        made = re.fullmatch(r"(?:\w+::)*([A-Z]\w*)", head)
        if made:
            return self.meant(made.group(1))
        return self.kinds_before(start + len(head), names_until)

    def with_parts(self, kinds):
        """The types, and what their fields or variants are made of: a pattern takes them apart."""
        return kinds.union(*(self.program.parts.get(kind, set()) for kind in kinds))


def binds(arms, name):
    """Whether a pattern of a `match` has a name: behind it comes an arrow, before the arm after it begins."""
    for found in re.finditer(r"\b%s\b(?![.(])" % name, arms):
        pattern, arrow, _ = arms[found.end() :].partition("=>")
        if arrow and not re.search(r";|[)}\]],\n", pattern):
            return True
    return False


def begins(program, function):
    """Whether it is called by no name: a `main`, a test, or a method of a trait of std."""
    is_main = function.name == "main" and sources.is_program(function.crate)
    is_foreign = function.trait is not None and function.trait not in program.traits
    return is_main or is_foreign or function.is_test


def reached(with_tests):
    """All functions, and those that a `main`, or with the tests a test, reaches."""
    program = Program(with_tests)
    pending = [f for f in program.functions if begins(program, f)]
    seen, alive = set(), set()
    while pending:
        function = pending.pop()
        if function in seen:
            continue
        seen.add(function)
        body = Body(program, function)
        alive |= body.types_in(" ".join(re.findall(r"\b[A-Z]\w*", body.text))) & program.owners
        pending += body.calls()
        if function.trait in program.traits:
            pending += [f for f in program.methods_of({function.trait}, function.name) if f is not function]
        # A trait's method is one of each type that is made somewhere.
        for other in program.functions:
            if other.trait in program.traits and other.owner in alive and other not in seen:
                if any(f in seen for f in program.methods_of({other.trait}, other.name)):
                    pending.append(other)
    return program, seen


def unreached(with_tests=False):
    """The public functions of the libraries that no program reaches, nor with the tests a test, but for laws."""
    program, seen = reached(with_tests)
    handed_out = {crate: sources.exported(crate) for crate in program.below}
    return [
        f
        for f in program.functions
        if f not in seen and f.is_public and not f.is_law and not f.is_test
        and not sources.is_program(f.crate)
        and (f.trait is None or f.trait in program.traits)
        and (f.owner or f.name) in handed_out[f.crate]
    ]
