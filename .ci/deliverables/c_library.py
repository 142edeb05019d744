#!/usr/bin/env python3
"""Builds the C library in its place, out/c, and compares it with its header, with the built program and with the programs that embed it.

    .ci/deliverables/c_library.py [PROGRAM [--proved]]     crates/nagsched/out/nagsched if no program is named; needs cc, c++ and the binutils

With --proved the library is built from what `rt ci` has just proved in this tree, by `tools/build_c.sh --proved`.

The examples print their histories: the one in C has four workers and an operator, the one in Python two workers. The entries of each pass are its
calls, and runs are numbered 1, 2, 3 and so on. The answers are those of the program to the same calls in that order. Mistakes change nothing. Each
request for memory is refused in turn. The library answers the conformance cases of `run` without `list` as the program does. Header, Python file and
definition have the same numbers. Two threads read the same handles at once, under ThreadSanitizer if the compiler has it.
"""
import collections
import json
import os
import pathlib
import re
import subprocess
import sys
import tempfile
from concurrent.futures import ThreadPoolExecutor

sys.path += [str(pathlib.Path(__file__).resolve().parents[1] / folder) for folder in ("program", "pages")]
from harness import SECONDS, TOP, Harness
import anchors
import needs
from cases import runs

IN_C, IN_PYTHON = TOP / "c", TOP / "python"
HEADER = IN_C / "nagsched.h"
STRICT = ["-std=c11", "-Wall", "-Wextra", "-Werror", "-O2"]
MINUTE, MINUTES = 60_000, (3, 2_000)
WORKERS = {"embed.c": 4, "embed.py": 2}
PROVED = sys.argv[2:]
COUNTED = ["-Wl,--wrap=malloc,--wrap=realloc"]
DEFINITIONS = [
    TOP / "crates" / "setup_model" / "specs" / "LoadError.antt",
    TOP / "crates" / "setup_model" / "specs" / "Place.antt",
    TOP / "crates" / "check_states" / "specs" / "Numbers.antt",
    TOP / "crates" / "check_sched" / "specs" / "ReplyTable.antt",
    TOP / "crates" / "nagsched_handles" / "specs" / "Structs.antt",
    TOP / "crates" / "nagsched_handles" / "specs" / "SavedFaults.antt",
]
STATUSES = TOP / "crates" / "nagsched_c" / "src" / "status.rt"
KINDS = TOP / "crates" / "nagsched_handles" / "src" / "kinds.rt"
# Each enumeration of the header: its name in Python, the prefix of its names in C, and the functions of the definition that number it.
ENUMERATIONS = {
    "nagsched_result": ("Result", "NAGSCHED_"),
    "nagsched_code": ("Code", "NAGSCHED_CODE_", "code_number"),
    "nagsched_state": ("State", "NAGSCHED_STATE_", "state_number"),
    "nagsched_kind": ("Kind", "NAGSCHED_", "kind_number"),
    "nagsched_call_kind": ("CallKind", "NAGSCHED_CALL_", "c_call"),
    "nagsched_reply_kind": ("ReplyKind", "NAGSCHED_REPLY_", "row_of", "refusal_row"),
    "nagsched_refusal_kind": ("RefusalKind", "NAGSCHED_REFUSAL_", "error_row", "c_fault"),
    "nagsched_part": ("Part", "NAGSCHED_PART_", "part_number"),
}
# The prefix in C of the names of a function of the definition.
PREFIXES = {"c_fault": "SAVED_"}
# A number without a name in the definition, and names in C without a number of their own.
NUMBERED_APART = {"nagsched_part": {"NONE": 0}}
UNNUMBERED = {"MEMORY"}


def run_command(*arguments, given=None, **how):
    """A program's output, its errors and its status."""
    return subprocess.run([str(word) for word in arguments], input=given, stdout=subprocess.PIPE, stderr=subprocess.PIPE, timeout=SECONDS, **how)


class Library:
    """The library as tools/build_c.sh installs it, and programs over it."""

    def __init__(self, harness, folder):
        self.harness, self.folder, self.prefix = harness, folder, TOP / "out" / "c"
        built = subprocess.run([TOP / "tools" / "build_c.sh", *PROVED], stdout=subprocess.PIPE, stderr=subprocess.STDOUT, text=True)
        harness.compare("tools/build_c.sh", 0, built.returncode)
        if built.returncode != 0:
            print(built.stdout)
            harness.end()
        self.archive, self.shared = self.prefix / "lib" / "libnagsched.a", self.prefix / "lib" / "libnagsched.so"

    def compile_program(self, source, *more):
        """A C program over the archive, or None if it doesn't compile."""
        program = self.folder / source.stem
        made = run_command("cc", *STRICT, f"-I{self.prefix}/include", source, *(more or [self.archive]), "-lpthread", "-o", program)
        self.harness.compare(f"{source.name} compiles", (0, b""), (made.returncode, made.stderr))
        return program

    def run_python(self, script, *arguments):
        """A run of a Python script over the shared library."""
        env = os.environ | {"NAGSCHED_LIBRARY": str(self.shared), "PYTHONPATH": str(IN_PYTHON), "PYTHONDONTWRITEBYTECODE": "1"}
        return run_command(sys.executable, script, *arguments, env=env)


def numbers_of(text, pattern):
    """The numbers that a text gives to the names of each enumeration, by the enumeration's name."""
    return {name: {member: int(number) for member, number in re.findall(r"(\w+) = (\d+)", body)}
            for name, body in re.findall(pattern, text, re.M | re.S)}


def constants(source):
    """The numbers of the constants in a source file, by their names."""
    return {name: int(number) for name, number in re.findall(r"const (\w+): u32 = (\d+);", source.read_text(encoding="utf-8"))}


def defined_numbers():
    """The numbers that the definition gives, by the function that gives them, with the names of C. A number is a constant or a literal."""
    text = "\n".join(definition.read_text(encoding="utf-8") for definition in DEFINITIONS)
    kinds = constants(KINDS)
    found = collections.defaultdict(dict)
    value = r"(?:\w*_struct |row |record \{\s+(?:kind|number) = )?(\d+|[A-Z]\w+)"
    for function, name, number in re.findall(rf"^(\w+) \(?(?:reply\.Refused )?\w+\.(\w+)\b[^=\n]*\)? = {value}", text, re.M):
        if number.isdigit() or number in kinds:
            found[function][re.sub(r"(?<!^)(?=[A-Z])", "_", name).upper()] = int(kinds.get(number, number))
    return found


def compare_numbers(harness):
    """Header, Python package and definition give each name the same number."""
    header = numbers_of(HEADER.read_text(encoding="utf-8"), r"^enum (\w+) \{(.*?)\};")
    python = numbers_of((IN_PYTHON / "nagsched" / "kinds.py").read_text(encoding="utf-8"), r"^class (\w+)\(enum.IntEnum\):(.*?)(?:\n\n\n|\Z)")
    defined = defined_numbers()
    harness.compare("enumerations in Python", sorted(python), sorted(name for name, *_ in ENUMERATIONS.values()))
    harness.compare("enumerations of the header", sorted(ENUMERATIONS), sorted(header))
    statuses = {f"NAGSCHED_{name}": number for name, number in constants(STATUSES).items()}
    harness.compare("the numbers of nagsched_result in the library", statuses, header["nagsched_result"])
    for name, (in_python, prefix, *functions) in ENUMERATIONS.items():
        in_header = {member.removeprefix(prefix): number for member, number in header[name].items()}
        harness.compare(f"the numbers of {name} in Python", in_header, python[in_python])
        if functions:
            wanted = dict(NUMBERED_APART.get(name, {}))
            for function in functions:
                wanted |= {PREFIXES.get(function, "") + member: number for member, number in defined[function].items() if member not in UNNUMBERED}
            harness.compare(f"the numbers of {name} in the definition", in_header, wanted)


def symbol_names(arguments, kind):
    """The names of this kind in a table of nm."""
    return sorted(re.findall(rf" {kind} (\w+)$", run_command("nm", "--defined-only", *arguments).stdout.decode(), re.M))


def check_symbols(harness, library):
    """Both libraries show exactly the names of the header, and need only the C library. The header is C++ too."""
    wanted = sorted(re.findall(r"^(?:uint32_t|enum nagsched_result) (nagsched_\w+)\(", HEADER.read_text(encoding="utf-8"), re.M))
    harness.compare("the names of the archive", wanted, symbol_names(["--extern-only", library.archive], "T"))
    harness.compare("the names of the shared library", wanted, symbol_names(["--dynamic", library.shared], "T"))
    told = run_command("readelf", "--dynamic", library.shared).stdout.decode()
    harness.compare("its soname", ["libnagsched.so.3"], re.findall(r"\(SONAME\).*\[(.*)\]", told))
    harness.compare("what it needs", [], [name for name in re.findall(r"\(NEEDED\).*\[(.*)\]", told) if not name.startswith(("libc.", "ld-linux"))])
    installed = library.prefix / "include" / "nagsched.h"
    harness.compare("the header", HEADER.read_bytes(), installed.read_bytes())
    plus = run_command("c++", "-fsyntax-only", "-Wall", "-Wextra", "-Werror", "-x", "c++", installed)
    harness.compare("the header in C++", (0, b""), (plus.returncode, plus.stderr))
    package = (library.prefix / "lib" / "pkgconfig" / "nagsched.pc").read_text(encoding="utf-8")
    harness.compare("nagsched.pc", str(library.prefix), re.search(r"^prefix=(.*)$", package, re.M)[1])


# A handle of another kind, and a number of another enumeration: the compiler warns of each.
MISTYPED = ("nagsched_take(&setup, 0, &reply)", "nagsched_report(&pass, 0, 1, NAGSCHED_STATE_DOWN, &reply)", "nagsched_close(&pass, &setup)",
            "nagsched_renew(&book, 0, &book)", "nagsched_free(&setup)")


def check_types(harness, folder):
    """A call with right types compiles without a warning, and none with wrong types does."""
    handles = "struct nagsched_setup setup = NAGSCHED_EMPTY; struct nagsched_pass pass = NAGSCHED_EMPTY; struct nagsched_book book = NAGSCHED_EMPTY;"
    for call in ("nagsched_take(&pass, 0, &reply)", *MISTYPED):
        source = folder / "types.c"
        source.write_text(f"#include <nagsched.h>\nint main(void) {{ {handles} struct nagsched_reply reply;\n"
                          f"(void)&setup, (void)&book; return (int){call}; }}\n", encoding="utf-8")
        made = run_command("cc", "-std=c11", "-Wall", "-Wextra", "-fsyntax-only", f"-I{HEADER.parent}", source)
        harness.compare(f"a warning at {call}", call in MISTYPED, bool(made.stderr))


def split_history(history):
    """The calls and answers of a history as the examples print it, each with its pass."""
    entry = collections.namedtuple("entry", "call pass_number answer")
    for line in history:
        call, told = line.split("\t")
        number, answer = told.split(" ", 1)
        yield entry(call, int(number), answer)


def worker_calls(answers, minutes, code):
    """The calls that a worker has to make, by the answers to its takes."""
    for minute in range(minutes):
        yield f'["take",{minute * MINUTE}]'
        word, *rest = next(answers).split(" ", 2)
        if word == "taken":
            next(answers)
            yield f'["report","{rest[1]}",{rest[0]},{code(int(rest[0]))}]'


def operator_calls(answers, minutes):
    """The calls that the operator has to make, except whether the door's checks are switched on or off."""
    for minute in range(minutes):
        yield from (f'["enable","room;door",{switch}]' for switch in [next(answers)])
        yield f'["reschedule","room;door",{minute * MINUTE},true]'
        yield f'["take",{minute * MINUTE}]'
        word, *rest = next(answers).split(" ", 2)
        if word == "taken":
            yield f'["abandon","{rest[1]}",{rest[0]},{minute * MINUTE}]'
        yield '["status","room;door"]'


def compare_history(harness, what, text, minutes, code):
    """Compares a history, as an example printed it, with what its threads have to do, and with the program."""
    setup, *history = text.decode().splitlines()
    entries = list(split_history(history))
    script = "".join(f"{line}\n" for line in [setup, *(entry.call for entry in entries)]).encode()
    answered = "".join(f"{entry.answer}\n" for entry in entries).encode()
    harness.compare(f"{what}: the program's answers", (answered, 0), harness.run(["run"], script))
    runs = [int(entry.answer.split(" ")[1]) for entry in entries if entry.answer.startswith("taken ")]
    harness.compare(f"{what}: runs", list(range(1, len(runs) + 1)), runs)
    by_pass = collections.defaultdict(list)
    for entry in entries:
        by_pass[entry.pass_number].append(entry)
    workers = WORKERS[what.split(",")[0]]
    harness.compare(f"{what}: passes", list(range(workers + (workers == 4))), sorted(by_pass))
    for number in range(workers):
        mine = by_pass[number]
        wanted = list(worker_calls(iter([entry.answer for entry in mine]), minutes, code))
        harness.compare(f"{what}: the calls of {number}", wanted, [entry.call for entry in mine])
    return by_pass


def compare_operator(harness, what, mine, minutes):
    """The operator's calls: it switches according to its glance, which saw one of two standings."""
    told = iter([re.search(r",(\w+)\]", entry.call)[1] if entry.call.startswith('["enable"') else entry.answer
                 for entry in mine if entry.call.startswith(('["enable"', '["take"'))])
    harness.compare(f"{what}: the operator's calls", list(operator_calls(told, minutes)), [entry.call for entry in mine])


def check_examples(harness, library):
    """The two examples, with few calls and with many. The example in C is linked with each library."""
    for how, more in {"shared": [f"-L{library.prefix}/lib", "-lnagsched", f"-Wl,-rpath,{library.prefix}/lib"], "static": []}.items():
        program = library.compile_program(IN_C / "examples/embed.c", *more)
        for minutes in MINUTES:
            what, made = f"embed.c, {how}, {minutes}", run_command(program, minutes)
            harness.compare(f"{what}: status", (0, b""), (made.returncode, made.stderr))
            by_pass = compare_history(harness, what, made.stdout, minutes, lambda run: 0 if run % 5 < 3 else 2)
            compare_operator(harness, what, by_pass[WORKERS["embed.c"]], minutes)
    for minutes in MINUTES:
        what, made = f"embed.py, {minutes}", library.run_python(IN_PYTHON / "examples/embed.py", minutes)
        harness.compare(f"{what}: status", 0, made.returncode)
        harness.compare(f"{what}: what the dashboard saw", b"seen:", made.stderr[:5])
        compare_history(harness, what, made.stdout, minutes, lambda run: 1 if run % 4 == 0 else 0)


def check_counting(harness, what, made):
    """A program that counts: it ends without an error, and its last line counts no failure."""
    *told, last = made.stdout.decode().splitlines() or [""]
    harness.compare(what, (0, True, b""), (made.returncode, bool(re.search(r": [1-9]\d* passed, 0 failed$", last)), made.stderr))
    print(*told, sep="\n", end="\n" if told else "")


def check_misuse(harness, library):
    """Mistakes in C and in Python, texts that no case reaches, desks of several passes, books, and each request for memory refused."""
    tests, common = IN_C / "tests", [f"-I{IN_C}/tests", library.archive]
    check_counting(harness, "mistakes in C", run_command(library.compile_program(tests / "wrong.c", *common, *COUNTED)))
    check_counting(harness, "texts in C", run_command(library.compile_program(tests / "texts.c", *common)))
    check_counting(harness, "desks in C", run_command(library.compile_program(tests / "desks.c", *common)))
    check_counting(harness, "books in C", run_command(library.compile_program(tests / "books.c", *common)))
    check_counting(harness, "days in C", run_command(library.compile_program(tests / "days.c", *common)))
    check_counting(harness, "saved states in C", run_command(library.compile_program(tests / "saved.c", *common)))
    check_counting(harness, "gatherings in C", run_command(library.compile_program(tests / "gatherings.c", *common)))
    check_counting(harness, "numbers in C", run_command(library.compile_program(tests / "numbers.c", *common)))
    check_counting(harness, "refused requests", run_command(library.compile_program(tests / "refused.c", *common, *COUNTED, "-Wl,--wrap=free")))
    check_readers(harness, library, [*common, *COUNTED, "-Wl,--wrap=free"])
    check_counting(harness, "mistakes in Python", library.run_python(IN_PYTHON / "tests/wrong.py"))
    check_counting(harness, "saved states in Python", library.run_python(IN_PYTHON / "tests/saved.py"))


def has_sanitizer(library):
    """Whether the compiler has ThreadSanitizer, and a program built with it runs here."""
    source = library.folder / "empty.c"
    source.write_text("int main(void) { return 0; }\n", encoding="utf-8")
    made = run_command("cc", "-fsanitize=thread", source, "-o", library.folder / "empty")
    return made.returncode == 0 and run_command(library.folder / "empty").returncode == 0


def check_readers(harness, library, arguments):
    """Two threads that read the same handles at once, and write nothing in them; also under ThreadSanitizer if it is there.
    ThreadSanitizer sees the C code and its calls of the C library. Memory that can't be written shows that the proved functions don't write."""
    source = IN_C / "tests/readers.c"
    check_counting(harness, "readers in C", run_command(library.compile_program(source, *arguments)))
    if has_sanitizer(library):
        check_counting(harness, "readers under ThreadSanitizer", run_command(library.compile_program(source, "-fsanitize=thread", *arguments)))
    else:
        print("readers under ThreadSanitizer: passed over, since the compiler has none that runs here")


def script_words(call):
    """A line of a script in plain words: first the command, then its numbers, and last its name."""
    word, *members = json.loads(call)
    numbers = [str(int(member)) for member in members if not isinstance(member, str)]
    return " ".join([word, *numbers, *(member for member in members if isinstance(member, str))])


def input_cases():
    """The cases of a run from an opening: the name, the C program's input, and the wanted output."""
    for case in runs():
        found = re.fullmatch(r"run( --start[ =]\+?(\d+))?( --)?", " ".join(case.arguments))
        if found is None:
            continue
        setup, *lines = case.given.split(b"\n")
        calls = [script_words(line).encode() for line in lines if line.strip(b" \t\r")]
        if b"list" in calls:
            continue  # the library reads standings by glances, and lists nothing
        lines = [(found[2] or "0").encode(), setup, *calls]
        yield case.name, b"".join(line + b"\n" for line in lines), case.wanted


def check_conformance(harness, library):
    """The cases of one thread, made by the library, give the same bytes."""
    program = library.compile_program(IN_C / "tests/script.c")
    all_cases = list(input_cases())
    harness.compare("more than a hundred cases", True, len(all_cases) > 100)
    with ThreadPoolExecutor(os.cpu_count()) as threads:
        for (name, _, wanted), made in zip(all_cases, threads.map(lambda case: run_command(program, given=case[1]), all_cases)):
            harness.compare(name, (wanted, 0, b""), (made.stdout, made.returncode, made.stderr))


def run_page_commands(harness, library, page):
    """The commands on the page and in the examples link and run the examples, in a folder like the repository."""
    for name in ("c", "python"):
        (library.folder / name).symlink_to(TOP / name)
    (library.folder / "out").mkdir()
    (library.folder / "out" / "c").symlink_to(library.prefix)
    links = [f"{command} -o embed && ./embed" for command in dict.fromkeys(re.findall(r"\bcc [^`\n]*program\.c[^`\n]*", page))]
    heads = "".join(file.read_text(encoding="utf-8") for file in (IN_C / "examples/embed.c", IN_PYTHON / "examples/embed.py"))
    builds = re.findall(r"tools/build_c\.sh && (.*examples/embed.*)", heads)
    harness.compare("the pages and examples: commands", (2, 2), (len(links), len(builds)))
    for command in [*links, *(build.replace("[MINUTES]", "1") for build in builds)]:
        said = command.replace("PREFIX", "out/c").replace("program.c", "c/examples/embed.c")
        made = run_command("sh", "-c", said, cwd=library.folder, env=os.environ | {"LD_LIBRARY_PATH": str(library.prefix / "lib")})
        harness.compare(command, (0, b'{"'), (made.returncode, made.stdout[:2]))


def check_first_programs(harness, library, pages):
    """The first programs print the output that the pages show after them."""
    made = {"first.c": run_command(library.compile_program(IN_C / "examples/first.c")), "first.py": library.run_python(IN_PYTHON / "examples/first.py")}
    for name, ran_once in made.items():
        lines = ran_once.stdout.decode().splitlines()
        harness.compare(f"{name}: its output is on a page", (0, 2, True), (ran_once.returncode, len(lines), all(f"`{line}`" in pages for line in lines)))


def check_pages(harness, library):
    """The commands of the pages build and run the two examples, and the first programs print the output on the pages."""
    pages = "".join(anchors.text_of(page) for page in anchors.PAGES)
    run_page_commands(harness, library, pages)
    check_first_programs(harness, library, pages)


def check_loops(harness, library):
    """The loops for months: plugins run, the state is saved, and a restart resumes it over another setup."""
    program = library.compile_program(IN_C / "examples/loop.c")
    runs = {"loop.c": lambda *arguments: run_command(program, *arguments), "loop.py": lambda *arguments: library.run_python(IN_PYTHON / "examples/loop.py", *arguments)}
    for name, run in runs.items():
        state, setup = library.folder / f"{name}.state", library.folder / "loop.json"
        for attempts, interval, ends in ((2, 1, ["DOWN HARD 2", "UP HARD 1"]), (5, 100, ["DOWN HARD 5", "UP HARD 1"])):
            hosts = [{"name": host, "check_interval": interval, "retry_interval": 1, "max_check_attempts": attempts} for host in ("down", "up")]
            setup.write_text(json.dumps({"options": {"interval_length": 1, "host_inter_check_delay_method": "n"}, "hosts": hosts}))
            made = run(setup, state, "3", 'test "$1" = up || exit 2')
            ended = [line.removeprefix("at the end standing ") for line in made.stdout.decode().splitlines() if line.startswith("at the end")]
            harness.compare(f"{name}, {attempts} attempts", (0, ends), (made.returncode, [" ".join(line.split(" ")[:3]) for line in ended]))
            harness.compare(f"{name}: the state is kept", True, state.read_bytes().startswith(b'{"format":1,'))


def check_installation(harness, library):
    """Both examples over what tools/install.sh installs: the header, the library and its pkg-config file, the Python module."""
    prefix, env = library.folder / "installed", os.environ | {"NAGSCHED_BUILT": str(library.prefix)}
    run_command(TOP / "monitor" / "build_runner.sh")
    made = run_command("bash", TOP / "tools" / "install.sh", prefix, env=env)
    harness.compare("tools/install.sh", 0, made.returncode)
    found = env | {"PKG_CONFIG_PATH": str(prefix / "lib/pkgconfig"), "LD_LIBRARY_PATH": str(prefix / "lib")}
    program = library.folder / "from_installed"
    built = run_command("sh", "-c", f"cc {IN_C / 'examples/embed.c'} $(pkg-config --cflags --libs nagsched) -lpthread -o {program} && {program} 1", env=found)
    harness.compare("embed.c over what is installed", (0, b'{"'), (built.returncode, built.stdout[:2]))
    python = found | {"PYTHONPATH": str(prefix / "lib/python3/dist-packages"), "PYTHONDONTWRITEBYTECODE": "1"}
    came = run_command(sys.executable, IN_PYTHON / "examples/embed.py", "1", env=python)
    harness.compare("embed.py over what is installed", (0, b'{"'), (came.returncode, came.stdout[:2]))


def main():
    needs.require("the C library", "cc", "c++", "ld", "ar", "objcopy", "nm", "pkg-config")
    harness = Harness("the C library")
    with tempfile.TemporaryDirectory() as folder:
        library = Library(harness, pathlib.Path(folder))
        check_symbols(harness, library)
        check_types(harness, library.folder)
        compare_numbers(harness)
        check_examples(harness, library)
        check_loops(harness, library)
        check_misuse(harness, library)
        check_conformance(harness, library)
        check_pages(harness, library)
        check_installation(harness, library)
    harness.end()


main()
