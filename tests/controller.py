#!/usr/bin/env python3
"""What a controller needs to hold the library: the stack and the size of each call, and what libcapi.a asks for.

    tests/controller.py          prints the figures
    tests/controller.py --write  writes them into docs/CONTROLLER.md
    tests/controller.py --check  fails where a figure is half more than on the page, where the page has other calls or
                                 areas, or where the library asks for a symbol that is not on the page

However it is called, it fails where something else that the page says of the library does not hold. The stack of a call
is computed from its machine code (`Code`) and is an upper bound. tests/controller.c makes every call on painted stacks,
which must not show more.
"""
import os
import pathlib
import re
import subprocess
import sys
import tempfile

ROOT = pathlib.Path(__file__).resolve().parent.parent
HEADER = ROOT / "include" / "cxl0.h"
PAGE = ROOT / "docs" / "CONTROLLER.md"
BEGIN, END = "<!-- tests/controller.py writes from here -->", "<!-- to here -->"
WORD = 8  # bytes of a return address and of a saved register
RED_ZONE = 128  # bytes below the stack pointer that the System V ABI leaves to a function
RELATIVE = ("R_X86_64_PC32", "R_X86_64_PLT32")  # what the linker puts in by distance
ALL = "all of them"


def text(*words):
    return subprocess.run([str(word) for word in words], check=True, stdout=subprocess.PIPE, encoding="utf-8").stdout


def library():
    folder = pathlib.Path(os.environ.get("MALLUVOM_LIB_DIR", ROOT / "target" / "staticlib"))
    if not (folder / "libcapi.a").is_file():
        subprocess.run(["tools/build", "capi"], cwd=ROOT, check=True, stdout=subprocess.DEVNULL)
    return folder / "libcapi.a"


def sizes(file):
    """The bytes of code, of constants and of writable data in the sections that take memory."""
    code = constants = data = 0
    section = r"^ +\[ *\d+\] \S+ +\S+ +[0-9a-f]{16} [0-9a-f]+ ([0-9a-f]+) [0-9a-f]+ +([A-Z]*A[A-Z]*) "
    for size, flags in re.findall(section, text("readelf", "-SW", file), flags=re.M):
        if "W" in flags:
            data += int(size, 16)
        elif "X" in flags:
            code += int(size, 16)
        else:
            constants += int(size, 16)
    return code, constants, data


def alone(call, archive, folder):
    """Code and constants where only this call is made: the linker drops the sections that it does not reach."""
    linked = folder / f"{call}.o"
    text("ld", "-r", "--gc-sections", "-u", call, "-e", call, archive, "-o", linked)
    return sizes(linked)[:2]


def instructions(archive):
    """Each instruction: its function, its words, and the symbol that the linker puts into it, or None."""
    found, function = [], None
    for line in text("objdump", "-dr", "--no-show-raw-insn", archive).splitlines():
        label = re.fullmatch(r"0+ <(.*)>:", line)
        symbol = re.fullmatch(r"\t{3}[0-9a-f]+: \S+\t(.*?)(?:[-+]0x[0-9a-f]+)?", line)
        if label:
            function = label[1]
        elif symbol:
            found[-1][2] = symbol[1]
        elif re.match(r" +[0-9a-f]+:\t", line):
            found.append([function, " ".join(line.split("\t")[1].split("#")[0].split()), None])
    return found


class Function:
    """What a function takes of the stack: its frame, what it uses below the stack pointer, and the functions it calls.

    The frame counts every push and every subtraction once, wherever in the function it stands. That is an upper bound,
    since compiled code gives back in a loop what it takes there."""

    def __init__(self, name):
        self.name, self.frame, self.below, self.callees, self.faults = name, 0, 0, set(), []
        self.jumps_by_table = False

    def take(self, words, symbol):
        operation, _, operands = words.partition(" ")
        moved = re.fullmatch(r"(sub|add) \$(0x[0-9a-f]+),%rsp", words)
        below = re.search(r"-(0x[0-9a-f]+)\(%rsp", operands)
        if operation.startswith("push"):
            self.frame += WORD
        elif moved:
            amount = int(moved[2], 16)
            amount -= amount >> 63 << 64  # it is printed without its sign
            self.frame += max(0, amount if moved[1] == "sub" else -amount)
        elif operation in ("enter", "leave") or sets_the_stack_pointer(words):
            self.faults.append(f"{self.name}: moves the stack pointer by `{words}`")
        if below:
            self.below = max(self.below, int(below[1], 16))
        if self.below > RED_ZONE:
            self.faults.append(f"{self.name}: uses {self.below} bytes below the stack pointer")
        if re.search(r"%([yz]mm|mm|st|k[0-7])", operands) or operation in ("syscall", "sysenter", "int"):
            self.faults.append(f"{self.name}: uses a register beyond SSE2's, or the system, by `{words}`")
        self.follow(words, symbol)

    def follow(self, words, symbol):
        goes, own = re.search(r"\b(call|j[a-z]+)\b", words.split("<")[0]), re.search(r"<([^+>]*)>$", words)
        if goes and symbol:
            self.callees.add(symbol.removeprefix(".text."))
        elif goes and goes[1] == "call":
            self.callees.add(own[1] if own else f"`{words}`")
        elif goes and "*" in words:
            self.jumps_by_table = True
        elif symbol and not symbol.startswith((".rodata", ".LCPI")):
            self.faults.append(f"{self.name}: takes the address of {symbol}")


def sets_the_stack_pointer(words):
    """It does where it names it outside an address, unless it only copies it."""
    return "%rsp" in re.sub(r"\(.*?\)", "", words) and not re.fullmatch(r"mov %rsp,%r\w+", words)


class Code:
    """The functions of the archive by name, and what of them does not hold.

    A jump through a register goes to a place in the function itself, from a table of the function: no other address of
    code is taken, in an instruction or in a table. So all calls are seen here."""

    def __init__(self, archive, asked_for):
        self.functions, self.asked_for = {}, asked_for
        for name, words, symbol in instructions(archive):
            self.functions.setdefault(name, Function(name)).take(words, symbol)
        self.faults = [fault for function in self.functions.values() for fault in function.faults]
        tables = self.tables(text("objdump", "-r", archive))
        for function in self.functions.values():
            if function.jumps_by_table and function.name not in tables:
                self.faults.append(f"{function.name}: jumps through a register without a table")

    def tables(self, listed):
        """The functions that have a table of places to jump to."""
        found = set()
        for section, records in re.findall(r"RECORDS FOR \[(.*)\]:\n.*\n((?:.+\n)*)", listed):
            for kind, symbol in re.findall(r"^\S+ (\S+) +(.*?)(?:[-+]0x[0-9a-f]+)?$", records, flags=re.M):
                if kind not in RELATIVE:
                    self.faults.append(f"{section}: has to be told where it is loaded ({kind})")
                if not section.startswith(".text"):
                    found.add(section.removeprefix(".rodata."))
                    if symbol != section.replace(".rodata", ".text", 1):
                        self.faults.append(f"{section}: has the address of {symbol}")
        return found

    def stack(self, name, callers=()):
        """The most bytes that a call takes, from its return address down."""
        if name in self.asked_for:
            return WORD
        if name not in self.functions or name in callers:
            self.faults.append(f"{', '.join([*callers, name])}: a recursion, or a call of what is not there")
            return 0
        function = self.functions[name]
        deeper = [self.stack(callee, (*callers, name)) for callee in sorted(function.callees)]
        return WORD + function.frame + max([function.below, *deeper])


def painted(archive, folder):
    """The most stack that each call took on the examples and the judge's cases; the status of tests/controller.c."""
    cases = text(ROOT / "tests" / "section", "judge", ROOT / "crates" / "cases" / "stdin")
    logs = [path.read_bytes() for path in sorted(ROOT.glob("examples/*/*.log"))]
    logs += [bytes.fromhex(case.split(" ")[2]) for case in cases.split("\n") if case.startswith("j ")]
    program, sources = folder / "controller", [ROOT / "tests" / "controller.c", ROOT / "tests" / "controller.S"]
    flags = ["-std=c11", "-O1", "-Wall", "-Wextra", "-Werror", "-pedantic", "-pthread", f"-I{HEADER.parent}"]
    text("gcc", *flags, *sources, archive, "-o", program)
    given = b"".join(len(log).to_bytes(2, "little") + log for log in logs)
    run = subprocess.run([program], input=given, stdout=subprocess.PIPE)
    return {call: int(stack) for call, stack in map(str.split, run.stdout.decode().splitlines())}, run.returncode


def lent():
    """The areas that a call writes to, by the header. A buffer of so many bytes holds every log."""
    defined = re.findall(r"#define CXL0_(\w+) (\d+)", HEADER.read_text(encoding="utf-8"))
    bytes_of = {name: int(value) for name, value in defined}
    return {
        "cxl0_record": f"buffer {bytes_of['LOG_MOST']:,}",
        "cxl0_convert": f"output {bytes_of['CONVERT_LEAST']:,}",
        "cxl0_judge": f"output {bytes_of['FILE_MOST']:,}, scratch {8 * bytes_of['SCRATCH_LEAST']:,}",
    }


def measure(archive):
    """The rows of the page, by call; the symbols that the library asks for; and what does not hold."""
    symbols = [line.split()[:2] for line in text("nm", "-P", archive).splitlines() if not line.endswith(":")]
    asked_for = sorted(name for name, kind in symbols if kind == "U")
    calls = re.findall(r"^uint64_t (cxl0_\w+)\(", HEADER.read_text(encoding="utf-8"), flags=re.M)
    code, areas, rows = Code(archive, asked_for), lent(), {}
    *whole, data = sizes(archive)
    faults = [f"{name}: writable" for name, kind in symbols if kind in "BbCDdGgSs"]
    if data:
        faults.append(f"{data} bytes of writable data")
    if sorted(calls) != sorted(name for name, kind in symbols if kind == "T"):
        faults.append("the header and the library have other calls")
    with tempfile.TemporaryDirectory() as name:
        folder = pathlib.Path(name)
        seen, status = painted(archive, folder)
        faults += [f"tests/controller.c: status {status}"] if status else []
        for call in calls:
            rows[call] = (areas.get(call, ""), code.stack(call), *alone(call, archive, folder))
            if not 0 < seen.get(call, 0) <= rows[call][1]:
                faults.append(f"{call}: computed are {rows[call][1]} bytes of stack, seen {seen.get(call)}")
    rows[ALL] = ("", max(row[1] for row in rows.values()), *whole)
    return rows, asked_for, faults + code.faults


def listing(rows, asked_for):
    lines = ["| call | areas lent | stack | code | constants |", "|---|---|---|---|---|"]
    for call, (area, *figures) in rows.items():
        name = call if call == ALL else f"`{call}`"
        lines.append(f"| {name} | {area} | " + " | ".join(f"{figure:,}" for figure in figures) + " |")
    return "\n".join([*lines, "", "Asked for: " + ", ".join(f"`{symbol}`" for symbol in asked_for) + "."])


def parsed(part):
    """The rows and the symbols of a listing."""
    lines = [line for line in part.splitlines() if line.startswith("|")][2:]
    cells = [[cell.strip(" `") for cell in line.strip("|").split("|")] for line in lines]
    rows = {call: (area, *(int(figure.replace(",", "")) for figure in figures)) for call, area, *figures in cells}
    return rows, re.findall(r"`(\w+)`", part.split("Asked for:")[-1])


def differences(rows, asked_for, page_rows, page_asked_for):
    """What is more than the page says, or something else."""
    faults = [f"{symbol}: asked for, and not on the page" for symbol in {*asked_for} - {*page_asked_for}]
    faults += [f"{call}: only on the page, or only in the library" for call in rows.keys() ^ page_rows.keys()]
    for call in rows.keys() & page_rows.keys():
        (area, *figures), (page_area, *page_figures) = rows[call], page_rows[call]
        if area != page_area:
            faults.append(f"{call}: the areas are '{area}', on the page '{page_area}'")
        for what, figure, was in zip(("stack", "code", "constants"), figures, page_figures):
            if 2 * figure > 3 * was:
                faults.append(f"{call}: {figure:,} bytes of {what}, on the page {was:,}")
    return faults


def main():
    rows, asked_for, faults = measure(library())
    made = listing(rows, asked_for)
    page = PAGE.read_text(encoding="utf-8")
    before, rest = page.split(BEGIN)
    now, after = rest.split(END)
    if sys.argv[1:] == []:
        print(made)
    elif sys.argv[1:] == ["--write"]:
        PAGE.write_text(f"{before}{BEGIN}\n{made}\n{END}{after}", encoding="utf-8")
    elif sys.argv[1:] == ["--check"]:
        faults += differences(rows, asked_for, *parsed(now))
    else:
        sys.exit(__doc__)
    for fault in sorted(set(faults)):
        print(fault)
    sys.exit(bool(faults))


main()
