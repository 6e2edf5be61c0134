"""The call graph of the machine code in a library, with the stack that each function takes."""
import os
import re
import subprocess

from calls.graph import Fault

RETURN = 8  # bytes of a return address
RED_ZONE = 128  # bytes below the stack pointer that a function may use without moving it
PAGE = 4096
OUTSIDE = {"memcpy": 256, "memmove": 256, "memset": 256}
PADDING = {"nop", "nopw", "nopl", "xchg", "data16", "cs", "int3", "ud2"}
ENDS = {"ud2", "hlt", "int3"}
PREFIX = r"(?:(?:notrack|bnd|rep|repz|repnz|lock|data16|cs|ds) )*"
# Instructions that may move the stack pointer or leave the function in ways that are not read.
STRANGE = re.compile(r"(leave|enter|sysc|syse|int|iret|lcall|ljmp|lret|call.|ret.|push.|pop[^c]|loop|xbegin|xabort)")
SWAPS = re.compile(r"(xchg|xadd|cmpxchg)")


class Code:
    """A function of an archive: where it stands, and its instructions by address."""

    def __init__(self, member, section, start, name):
        self.member, self.section, self.start, self.name = member, section, start, name
        self.lines, self.end = {}, float("inf")


def objdump(*arguments):
    environment = dict(os.environ, LC_ALL="C")
    run = subprocess.run(["objdump", *arguments], env=environment, capture_output=True, text=True, errors="replace")
    if run.returncode != 0:
        raise Fault(run.stderr.strip() or "objdump does not read it")
    return run.stdout.split("\n")


class Archive:
    """The functions and the relocations of a static library."""

    def __init__(self, path):
        self.starts, self.names, self.relocations, self.constants = {}, {}, {}, set()
        self.read_code(objdump("-d", "--no-show-raw-insn", path))
        self.read_relocations(objdump("-r", path))
        self.read_constants(objdump("-t", path))

    def read_code(self, lines):
        member = section = code = None
        for line in lines:
            file = re.match(r"(\S+):\s+file format (\S+)", line)
            label = re.match(r"([0-9a-f]+) <(.+)>:$", line)
            instruction = re.match(r"\s*([0-9a-f]+):\t" + PREFIX + r"(\S+)\s*([^#]*)", line)
            if file:
                member = file.group(1)
                if file.group(2) != "elf64-x86-64":
                    raise Fault("%s: the machine code of %s is not read" % (member, file.group(2)))
            elif line.startswith("Disassembly of section "):
                section = line[len("Disassembly of section ") : -1]
            elif label:
                start = int(label.group(1), 16)
                if code and (code.member, code.section) == (member, section):
                    code.end = start
                code = Code(member, section, start, label.group(2))
                self.starts[member, section, code.start] = code
                self.names.setdefault(code.name, []).append(code)
            elif instruction:
                operation = re.sub("^(call|ret|jmp|push|pop)q$", r"\1", instruction.group(2))
                code.lines[int(instruction.group(1), 16)] = (operation, instruction.group(3).strip())

    def read_constants(self, lines):
        """Names of data in sections of constants, which hold no addresses: one with a relocation is none."""
        member = None
        for line in lines:
            file = re.match(r"(\S+):\s+file format ", line)
            entry = re.match(r"[0-9a-f]{16} .{7} (\.rodata\.cst\d+)\t[0-9a-f]{16} (\S+)$", line)
            if file:
                member = file.group(1)
            elif entry and (member, entry.group(1)) not in self.relocations:
                self.constants.add((member, entry.group(2)))

    def read_relocations(self, lines):
        member = section = None
        for line in lines:
            file = re.match(r"(\S+):\s+file format ", line)
            head = re.match(r"RELOCATION RECORDS FOR \[(.*)\]:", line)
            entry = re.match(r"([0-9a-f]{16}) (\S+)\s+(.+?)([+-]0x[0-9a-f]+)?$", line)
            if file:
                member = file.group(1)
            elif head:
                section = head.group(1)
            elif entry:
                at, kind, name, addend = entry.groups()
                self.relocations.setdefault((member, section), {})[int(at, 16)] = (kind, name, int(addend or "0", 16))

    def function(self, code, name, offset):
        """The function that a symbol, or a section, and an offset in it lead to; None for one outside the archive."""
        if name.startswith("."):
            found = [self.starts.get((code.member, name, offset))]
        else:
            known = self.names.get(name, [])
            found = [other for other in known if other.member == code.member] or known
            if not found:
                return None
        if len(found) != 1 or not found[0] or offset and not name.startswith("."):
            raise Fault("%s: `%s%+d` is no function that is known" % (code.name, name, offset))
        return found[0]

    def key(self, code):
        return code.name if len(self.names[code.name]) == 1 else "%s:%s" % (code.member, code.name)

    def entry(self, name):
        found = self.names.get(name, [])
        if len(found) != 1:
            raise Fault("the library has %d functions `%s`" % (len(found), name))
        return found[0]


class Frame:
    """One way through a function's code from its entry: the bytes of stack in use at each instruction, and the calls."""

    def __init__(self, code, archive):
        self.code, self.archive = code, archive
        self.calls, self.found, self.tables, self.limit = [], {}, 0, None
        places = sorted(code.lines)
        self.after = dict(zip(places, places[1:] + [None]))
        self.before = dict(zip(places[1:], places))
        todo = [(code.start, RETURN)]
        while todo:
            at, depth = todo.pop()
            if at not in code.lines:
                self.fault(places[-1], "the code runs on behind it")
            if at not in self.found:
                self.found[at] = depth
                todo += self.step(at, depth)
            elif self.found[at] != depth:
                self.fault(at, "%d or %d bytes of stack are in use" % (depth, self.found[at]))
        for at, (operation, _) in code.lines.items():
            if at not in self.found and operation not in PADDING:
                self.fault(at, "no way leads there")
        self.own = max(self.found.values()) + RED_ZONE

    def place(self, at):
        return "%s+0x%x" % (self.code.name, at - self.code.start)

    def fault(self, at, what):
        raise Fault("%s: %s: %s" % (self.place(at), " ".join(self.code.lines[at]), what))

    def relocation(self, at):
        """The symbol that stands in an instruction, and the offset that it leads to; None if there is none."""
        entries = self.archive.relocations.get((self.code.member, self.code.section), {})
        for place in range(at, self.after[at] or min(at + 16, self.code.end)):
            if place in entries:
                kind, name, addend = entries[place]
                if kind not in ("R_X86_64_PC32", "R_X86_64_PLT32"):
                    self.fault(at, "a relocation %s is not read" % kind)
                return name, addend + 4
        return None

    def step(self, at, depth):
        """The instructions that may follow, each with the bytes of stack in use there."""
        operation, operands = self.code.lines[at]
        if operation == "ret":
            if depth != RETURN:
                self.fault(at, "%d bytes of stack are in use" % depth)
            return []
        if operation in ENDS:
            return []
        if operation == "call":
            self.calls.append((self.callee(at, operands), self.place(at), depth))
            return [(self.after[at], depth)]
        if operation.startswith("j"):
            return self.jump(at, depth)
        self.takes_no_address(at)
        return [(self.after[at], self.moved(at, depth))]

    def callee(self, at, operands):
        if operands.startswith("*"):
            self.fault(at, "an indirect call")
        name, offset = self.relocation(at) or (self.code.section, int(operands.split()[0], 16))
        code = self.archive.function(self.code, name, offset)
        if not code and name not in OUTSIDE:
            self.fault(at, "`%s` is in no list of functions outside the library" % name)
        return code or name

    def jump(self, at, depth):
        operation, operands = self.code.lines[at]
        if operands.startswith("*"):
            self.tables += 1
            return [(place, depth) for place in sorted(self.table(at))]
        if self.probes(at):
            if (self.limit - depth) % PAGE or self.limit < depth:
                self.fault(at, "a loop over pages of stack that is not read")
            return [(self.after[at], self.limit)]
        ways = [] if operation == "jmp" else [(self.after[at], depth)]
        target = int(operands.split()[0], 16)
        if not self.relocation(at) and target in self.code.lines:
            return ways + [(target, depth)]
        self.calls.append((self.callee(at, operands), self.place(at), depth - RETURN))
        return ways

    def probes(self, at):
        """Does a jump end a loop that goes down the stack page by page, as far as %r11?"""
        before = self.code.lines.get(self.before.get(at), ("", ""))
        return self.code.lines[at][0] == "jne" and before == ("cmp", "%r11,%rsp") and self.limit is not None

    def table(self, at):
        """The places that an indirect jump may lead to: those in the tables that the function names, all in its own code."""
        bases, places = self.bases(at), set()
        for section, base in bases:
            entries, offset = self.archive.relocations.get((self.code.member, section), {}), base
            while offset in entries and (offset == base or (section, offset) not in bases):
                kind, name, addend = entries[offset]
                place = addend - (offset - base)
                if kind != "R_X86_64_PC32" or name != self.code.section or place not in self.code.lines:
                    self.fault(at, "a table that leads out of the function")
                places.add(place)
                offset += 4
        if not places:
            self.fault(at, "an indirect jump with no table")
        return places

    def bases(self, jump):
        """Where the read-only data begin that the function names; it may name no other data than constants."""
        bases = set()
        for at, (operation, _) in self.code.lines.items():
            named = None if operation == "call" or operation.startswith("j") else self.relocation(at)
            if named and named[0].startswith(".rodata"):
                bases.add(named)
            elif named and not named[0].startswith(".LCPI") and (self.code.member, named[0]) not in self.archive.constants:
                self.fault(jump, "an indirect jump beside the data `%s`" % named[0])
        return bases

    def takes_no_address(self, at):
        named = self.relocation(at)
        if named and (named[0].startswith(".text") or named[0] in self.archive.names or named[0] in OUTSIDE):
            self.fault(at, "the address of a function is taken")

    def moved(self, at, depth):
        """The bytes of stack in use after an instruction that is no jump."""
        operation, operands = self.code.lines[at]
        source, _, target = operands.rpartition(",")
        swaps = SWAPS.match(operation) and "%rsp" in operands.split(",")
        if STRANGE.match(operation) or swaps or target in ("%esp", "%sp", "%spl") or operands == "%rsp" and operation != "push":
            self.fault(at, "the stack pointer is moved in a way that is not read")
        if operation in ("push", "pop"):
            return depth + (8 if operation == "push" else -8)
        if target == "%r11":
            self.limit = self.bound(operation, source, depth)
        if target != "%rsp" or operation in ("cmp", "test"):
            return depth
        if operation not in ("add", "sub") or not source.startswith("$"):
            self.fault(at, "the stack pointer is moved in a way that is not read")
        return depth + self.number(source) * (1 if operation == "sub" else -1)

    def bound(self, operation, source, depth):
        """The bytes of stack that %r11 points below, if it is known."""
        if (operation, source) == ("mov", "%rsp"):
            return depth
        if operation == "sub" and source.startswith("$") and self.limit is not None:
            return self.limit + self.number(source)
        return None

    def number(self, text):
        value = int(text[1:], 16)
        return value - (1 << 64) if value >> 63 else value


def machine(path, names):
    """The graph of the machine code that these functions reach, and the frames."""
    archive = Archive(path)
    graph, frames, todo = {}, {}, [archive.entry(name) for name in names]
    while todo:
        code = todo.pop()
        key = archive.key(code)
        if key in graph:
            continue
        frames[key] = Frame(code, archive)
        graph[key] = []
        for callee, place, depth in frames[key].calls:
            if isinstance(callee, Code):
                todo.append(callee)
            graph[key].append((archive.key(callee) if isinstance(callee, Code) else callee, place, depth))
    for name in OUTSIDE:
        graph.setdefault(name, [])
    return graph, frames
