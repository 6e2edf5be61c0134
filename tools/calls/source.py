"""The call graph of the sources of the crates that the library stands on."""
import glob
import os
import re

from calls.graph import Fault

# What the library exports: each stands in one of these two.
ROOTS = (
    "wizbratel_check_table",
    "wizbratel_print_table",
    "wizbratel_start",
    "wizbratel_ask",
    "wizbratel_ask_all",
)
READS_A_SHEET = ("wizbratel_check_sheet", "wizbratel_make_table", "wizbratel_walk")
# The crate whose exports these are, and the name of its archive.
LIBRARY = "wizbratel_c"
ARCHIVE = "wizbratel"

# What the sources call that they do not define: of the language. None of them calls back.
METHODS = set(
    "len is_empty min max saturating_add saturating_sub copy_from_slice fill iter iter_mut copied enumerate rev zip chunks_exact "
    "swap_with_slice step_by chunks as_slice get first last is_some is_none is_ok is_err ok_or ok unwrap unwrap_or".split()
)
KIT = {"count_ones", "trailing_zeros", "from", "try_from", "MAX"}
CONSTRUCTORS = {"Some", "Ok", "Err"}
# Attributes by which nothing is called: what derives write calls nothing of the sources, since no trait of theirs is SHUT.
DERIVED = "Clone|Copy|Debug|PartialEq|Eq|PartialOrd|Ord|Drop|Default"
ATTRIBUTE = re.compile(
    r"unsafe\(no_mangle\)|repr\((C|u8)\)|derive\((%s)(,(%s))*\)|inline\(never\)|(tactic|cycle)\(.*\)" % (DERIVED, DERIVED)
)
NUMBERS = {"u8", "u16", "u32", "u64", "usize"}
# Traits of the language that the sources may implement: their functions are called by name, or by `?` and a `for`.
OPEN_TRAITS = {"From", "TryFrom"}

# Words that are no name; and those that a body may not have, since they begin an item or a form that could hide a call.
WORDS = set("as break continue else false for if in let loop match mut return self true while".split())
SHUT_OUT = set(
    "async await const dyn enum extern fn ghost impl macro_rules mod move pub ref static struct super trait "
    "type unsafe use where yield".split()
)

TOKEN = re.compile(
    r"""(?P<skip>\s+|//[^\n]*)
      | (?P<raw>/\*|b?r\#*")
      | (?P<text>b?"(?:[^"\\]|\\.)*" | b'(?:[^'\\]|\\x..|\\.)')
      | (?P<number>[0-9]\w*)
      | (?P<word>[A-Za-z_][A-Za-z0-9_]*)
      | (?P<life>'[a-z_]\w*)
      | (?P<sign>:: | -> | => | \.\.=? | && | \|\| | [<>]{2}=? | [-<>=!+*/%&|^]=? | .)""",
    re.X | re.S,
)


class Token(str):
    """A token's text, with its kind and its place."""

    def __new__(cls, text, kind, place):
        token = super().__new__(cls, text)
        token.kind, token.place = kind, place
        return token


def tokens_of(path, shown):
    with open(path, encoding="utf-8") as source:
        text = source.read()
    line, tokens = 1, []
    for found in TOKEN.finditer(text):
        kind, place = found.lastgroup, "%s:%d" % (shown, line)
        if kind == "raw" or kind == "text" and "\n" in found.group():
            raise Fault("%s: `%s` is not read" % (place, found.group().split("\n")[0]))
        if kind != "skip":
            tokens.append(Token(found.group(), kind, place))
        line += found.group().count("\n")
    return tokens


class Module:
    """A file: the items that stand under each name in it, as pairs of a kind and what it is."""

    def __init__(self, crate, name, path, shown):
        self.crate, self.name, self.path, self.shown, self.items = crate, name, path, shown, {}

    def add(self, name, kind, what):
        self.items.setdefault(str(name), []).append((kind, what))

    def key(self, *names):
        return "::".join((self.crate,) + ((self.name,) if self.name else ()) + names)


class Function:
    """A function: its name with crate, module and type; and what calls are looked for in."""

    def __init__(self, key, module, place, exported, params, body, types=frozenset()):
        self.key, self.module, self.place, self.exported = key, module, place, exported
        self.params, self.body, self.types = params, body, types


class Items:
    """Reads the items of a file into its module and into the world."""

    def __init__(self, module, world):
        self.module, self.world, self.at = module, world, 0
        self.tokens = tokens_of(module.path, module.shown)

    def fault(self, what):
        place = self.tokens[min(self.at, len(self.tokens) - 1)].place
        raise Fault("%s: %s" % (place, what))

    def next(self, wanted=None):
        if self.at >= len(self.tokens):
            self.fault("the file ends too early")
        token = self.tokens[self.at]
        if wanted and token != wanted:
            self.fault("`%s` where `%s` is read" % (token, wanted))
        self.at += 1
        return token

    def peek(self):
        return self.tokens[self.at] if self.at < len(self.tokens) else ""

    def until(self, *ends):
        """The tokens before one of these that stands in no bracket."""
        began, depth = self.at, 0
        while depth or self.peek() not in ends:
            token = self.next()
            depth += (token in ("(", "[", "{")) - (token in (")", "]", "}"))
            if depth < 0:
                self.fault("a bracket too many")
        return self.tokens[began : self.at]

    def group(self, opening, closing):
        """The tokens between two brackets."""
        self.next(opening)
        inside = self.until(closing)
        self.next(closing)
        return inside

    def read(self):
        while self.at < len(self.tokens):
            exported = self.attributes()
            if self.at == len(self.tokens):
                break
            public = self.visible()
            word = self.next()
            if word == "extern" and public and self.next('"C"'):
                word = self.next()
            item = getattr(self, "read_" + word, None)
            if word.kind != "word" or not item or exported and word != "fn":
                self.at -= 1
                self.fault("an item that begins with `%s` is not read" % word)
            if word == "fn":
                self.read_fn(exported)
            else:
                item()

    def visible(self):
        """Whether `pub` stands here, with where it is seen."""
        public = self.peek() == "pub" and self.next()
        if public and self.peek() == "(":
            self.group("(", ")")
        return public

    def attributes(self):
        exported = False
        while self.peek() == "#":
            self.next()
            if self.peek() == "!":
                self.next()
            text = "".join(self.group("[", "]"))
            if not ATTRIBUTE.fullmatch(text):
                self.fault("the attribute `%s` is not known" % text)
            exported = exported or text == "unsafe(no_mangle)"
        return exported

    def read_ghost(self):
        self.next("use")
        self.until(";")
        self.next(";")

    def read_use(self):
        """A path, or one that ends with several names in brackets, each of which may be a path."""
        path = self.until(";")
        if not re.fullmatch(r"\w+( :: \w+)*( :: \{( \w+( :: \w+)* ,)* \w+( :: \w+)*( ,)? \})?", " ".join(path)):
            self.fault("a `use` line that is no path is not read")
        above, ends = path, [[]]
        if "{" in path:
            above, ends = path[: path.index("{")], [[]]
            for token in path[path.index("{") + 1 : -1]:
                if token == ",":
                    ends.append([])
                else:
                    ends[-1].append(token)
            ends = [end for end in ends if end]
        for end in ends:
            whole = (above + end)[::2]
            if end == ["self"]:
                whole = above[::2]
            self.module.add(whole[-1], "use", whole)
        self.next(";")

    def read_mod(self):
        if self.module.name:
            self.fault("a module in a module is not read")
        name = self.next()
        self.next(";")
        self.module.add(name, "mod", self.world.module(self.module.crate, str(name)))

    def read_const(self):
        self.module.add(self.next(), "const", None)
        value = self.until(";")
        for one, two in zip(value, value[1:]):
            if one.kind == "word" and two == "(":
                self.fault("a call in a constant is not read")
        self.next(";")

    def read_struct(self):
        name = self.next()
        self.generics()
        self.module.add(name, "type", self.module.key(name))
        fields = self.group("(", ")") if self.peek() == "(" else self.group("{", "}")
        if "fn" in fields:
            self.fault("a function value is not read")
        if self.tokens[self.at - 1] == ")":
            self.next(";")

    def read_enum(self):
        name = self.next()
        key = self.module.key(name)
        self.module.add(name, "type", key)
        inside, depth = self.group("{", "}"), 0
        for token in inside:
            if depth == 0 and token not in (",", "(", "[", "{", "=") and token.kind not in ("word", "number"):
                self.fault("the enum `%s` is not read" % name)
            if depth == 0 and token.kind == "word":
                self.world.member(key, token, ("variant", None))
            depth += (token in ("(", "[", "{")) - (token in (")", "]", "}"))

    def generics(self):
        """The names of type parameters, if there are any. A bound is no code."""
        names, depth = set(), 0
        while self.peek() == "<" or depth:
            token = self.next()
            if token in ("Fn", "FnMut", "FnOnce"):
                self.fault("a function value is not read")
            depth += token.count("<") - (token.count(">") if token != "->" else 0)
            if depth == 1 and token.kind == "word" and self.tokens[self.at - 2] in ("<", ",", "const"):
                names.add(token)
        return names

    def read_trait(self):
        """A trait: what its functions do stands in the types that have it, or here."""
        name = self.next()
        self.module.add(name, "type", self.module.key(name))
        self.generics()
        self.until("{")
        self.members(name)

    def read_impl(self):
        """The functions of a type: its own, or those of a trait."""
        types = self.generics()
        owner = self.next()
        self.generics()
        if self.peek() == "for":
            self.next()
            if owner not in OPEN_TRAITS and owner not in self.module.items:
                self.fault("an `impl` of `%s` could hide a call" % owner)
            owner = self.next()
            self.generics()
        self.members(owner, types)

    def members(self, owner, types=frozenset()):
        self.next("{")
        while self.peek() != "}":
            self.attributes()
            self.visible()
            word = self.next()
            if word == "fn":
                self.read_fn(False, owner, types)
            elif word in ("ghost", "type", "const"):
                inside = self.until(";")
                if word == "const" and any(t == "(" for t in inside):
                    self.fault("a call in a constant is not read")
                self.next(";")
            else:
                self.fault("a member that begins with `%s` is not read" % word)
        self.next("}")

    def read_fn(self, exported, owner=None, types=frozenset()):
        name = self.next()
        types = types | self.generics()
        params = self.group("(", ")")
        result = self.until("{", ";", "requires", "ensures")
        if "fn" in params + result or "dyn" in params + result or "impl" in params + result or "Fn" in params + result:
            self.fault("a function value is not read")
        while self.peek() not in ("{", ";"):
            self.contract()
        key = self.module.key(*([owner, name] if owner else [name]))
        if self.peek() == ";":
            if not owner:
                self.fault("a function without a body is not read")
            self.next()
            return
        body = self.group("{", "}")
        if owner and key in self.world.functions:
            key += "@%s" % name.place.split(":")[-1]
        self.world.function(Function(key, self.module, name.place, exported, params, body, types))
        if owner:
            self.world.member(self.module.key(owner), name, ("fn", key))
        else:
            self.module.add(name, "fn", key)

    def contract(self):
        """A clause of a contract, which is no code: a word, its name if it has one, and text in brackets."""
        if self.next() not in ("requires", "ensures"):
            self.fault("a clause that is no contract")
        if self.peek() != "{":
            self.next()
        self.group("{", "}")


class World:
    """The crates, their modules and functions, and what the names in them stand for."""

    def __init__(self, root):
        self.root, self.needs, self.modules, self.functions, self.members = root, {}, {}, {}, {}
        with open(root + "/crates.txt", encoding="utf-8") as lines:
            listed = {}
            for line in lines:
                name, colon, needs = line.partition("#")[0].partition(":")
                if colon:
                    listed[name.split()[0]] = needs.split()
        todo = [LIBRARY]
        while todo:
            crate = todo.pop()
            if crate in listed and crate not in self.needs:
                self.needs[crate] = listed[crate]
                todo += listed[crate]
        for crate in sorted(self.needs):
            self.crate(crate)

    def crate(self, crate):
        folder = "%s/crates/%s/src" % (self.root, crate)
        files = sorted(glob.glob(folder + "/**", recursive=True))
        main = "lib" if folder + "/lib.rt" in files else "main"
        self.module(crate, main, "")
        for path in files:
            name = path[len(folder) + 1 :]
            if name and name != main + ".rt" and (crate, name[:-3]) not in self.modules:
                raise Fault("%s: no `mod` line names it" % os.path.relpath(path, self.root))

    def module(self, crate, file, name=None):
        shown = "crates/%s/src/%s.rt" % (crate, file)
        module = Module(crate, file if name is None else name, self.root + "/" + shown, shown)
        self.modules[crate, module.name] = module
        if not os.path.exists(module.path):
            raise Fault("%s: there is no such file" % shown)
        Items(module, self).read()
        return module

    def function(self, function):
        if function.key in self.functions:
            raise Fault("%s: `%s` stands twice" % (function.place, function.key))
        self.functions[function.key] = function

    def member(self, key, name, item):
        self.members.setdefault(key, {}).setdefault(str(name), []).append(item)

    def named(self, module, path, busy=()):
        """All that a path can name where it stands in a module, as pairs of a kind and what it is."""
        if (module, tuple(path)) in busy:
            return []
        busy += ((module, tuple(path)),)
        found = self.first(module, path[0], busy)
        for name in path[1:]:
            found = [item for kind, what in found for item in self.inside(kind, what, name, busy)]
        return found

    def first(self, module, name, busy):
        if name == "crate":
            return [("mod", self.modules[module.crate, ""])]
        own, found = self.items(module, name, busy), []
        if name in self.needs[module.crate]:
            found = [("mod", self.modules[name, ""])]
        if found and any(kind in ("mod", "type") and (kind, what) not in found for kind, what in own):
            raise Fault("%s: `%s` is a crate and an item too" % (name.place, name))
        return own + found

    def items(self, module, name, busy):
        """What stands in a module under a name, with what its `use` lines bring."""
        found = []
        for kind, what in module.items.get(name, []):
            found += self.named(module, what, busy) if kind == "use" else [(kind, what)]
        return found

    def inside(self, kind, what, name, busy):
        if kind == "mod":
            return self.items(what, name, busy)
        if kind == "type":
            return self.members.get(what, {}).get(name, [])
        return []

    def method(self, name):
        """All methods of a name: the type of what it is called on is not looked for."""
        found = [item for names in self.members.values() for item in names.get(name, [])]
        return sorted(what for kind, what in found if kind == "fn")

    def called_by(self, form):
        """The methods that a form of the language calls: `?` turns an error, a `for` takes what comes next."""
        return self.method("from" if form == "?" else "next")


class Calls:
    """The calls in a function's body, as pairs of a function's key and the place of the call."""

    def __init__(self, function, world):
        self.function, self.world, self.body = function, world, function.body
        self.found = []
        self.bound = self.locals()
        for i, token in enumerate(self.body):
            self.shut_out(i, token)
            before, after = self.around(i)
            if token in ("?", "for"):
                self.found += [(key, token.place) for key in world.called_by(token)]
            if token.kind != "word" or token in WORDS or before == "::":
                continue
            if before != ".":
                self.path(i)
            elif after == "(":
                self.method(token)

    def around(self, i):
        return self.body[i - 1] if i else "{", self.body[i + 1] if i + 1 < len(self.body) else "}"

    def locals(self):
        names = {one for one, two in zip(self.function.params, self.function.params[1:]) if two == ":"}
        for i, token in enumerate(self.body):
            if token in ("let", "for"):
                ends = ("=", ":") if token == "let" else ("in",)
                until = next((j for j in range(i + 1, len(self.body)) if self.body[j] in ends), i)
                names |= {word for word in self.body[i + 1 : until] if word.kind == "word"}
        return names

    def fault(self, token, what):
        raise Fault("%s: in `%s`: %s" % (token.place, self.function.key, what))

    def shut_out(self, i, token):
        """Fails on a form that could hide a call."""
        before, after = self.around(i)
        word = isinstance(before, Token) and before.kind == "word" and before not in WORDS
        if token in SHUT_OUT or not token.isascii() and token.kind != "text" or token in ("#", "@", "$", "`", "\\"):
            self.fault(token, "`%s` is not read" % token)
        if token == "!" and word:
            self.fault(token, "the macro `%s!` is not read" % before)
        if token == "(" and before in (")", "]"):
            self.fault(token, "a call of a value is not read")
        if token in ("|", "||") and (before in ("(", "[", "{", ",", ";", "=", "=>", ":") or before in WORDS - {"true", "false", "self"}):
            self.fault(token, "a closure is not read")
        if token == "::" and not word:
            self.fault(token, "a path by `::%s` is not read" % after)

    def method(self, token, known=METHODS):
        keys = self.world.method(token)
        if not keys and token not in known:
            self.fault(token, "no method `%s` is known" % token)
        self.found += [(key, token.place) for key in keys]

    def arguments(self, at):
        """The place where arguments in pointed brackets end, which are no code."""
        depth = 0
        while True:
            depth += self.body[at].count("<") - (self.body[at].count(">") if self.body[at] != "->" else 0)
            if depth == 0:
                return at
            at += 1

    def path(self, i):
        """A path that begins at a token: a call, or something that is no function."""
        path, at = [self.body[i]], i
        while self.around(at)[1] == "::":
            at += 2
            if self.body[at] == "<":
                at = self.arguments(at)
            else:
                path.append(self.body[at])
        after, first = self.around(at)[1], self.body[i]
        if len(path) == 2 and (first in self.function.types or first == "Self" or first in NUMBERS):
            return self.method(path[1], METHODS | KIT if first in NUMBERS else METHODS)
        if path[0] in CONSTRUCTORS and len(path) == 1:
            return None
        items = self.world.named(self.function.module, path)
        keys = {what for kind, what in items if kind == "fn"}
        if after != "(":
            if keys and (len(path) > 1 or first not in self.bound and after != ":"):
                self.fault(first, "the function `%s` is no value" % "::".join(path))
            if len(path) > 1 and not items:
                self.fault(first, "`%s` names nothing" % "::".join(path))
        elif len(keys) == 1:
            self.found.append((keys.pop(), first.place))
        elif keys or not any(kind in ("variant", "type") for kind, what in items):
            self.fault(first, "`%s` is %s" % ("::".join(path), "ambiguous" if keys else "no function that is known"))


def source_graph(world):
    """Each function with its calls: whom, where, and 1 for one call."""
    graph, faults = {}, []
    for key, function in world.functions.items():
        try:
            graph[key] = [(callee, place, 1) for callee, place in Calls(function, world).found]
        except Fault as fault:
            faults.append(str(fault))
    if faults:
        raise Fault("\n".join(faults))
    return graph


def exports(world):
    """The keys of the functions to start from; every export of the library must be known."""
    crates, todo = set(), [LIBRARY]
    while todo:
        crate = todo.pop()
        if crate not in crates and crate in world.needs:
            crates.add(crate)
            todo += world.needs[crate]
    names = {}
    for key, function in world.functions.items():
        if function.exported and function.module.crate in crates:
            name = key.split("::")[-1]
            if name not in ROOTS + READS_A_SHEET:
                raise Fault("%s: `%s` is exported and in no list of tools/no-recursion" % (function.place, name))
            names[name] = key
    for name in ROOTS + READS_A_SHEET:
        if name not in names:
            raise Fault("crates/%s/src/lib.rt: `%s` is not exported" % (LIBRARY, name))
    return [names[name] for name in ROOTS]
