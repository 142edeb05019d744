#!/usr/bin/env python3
"""Tests the pages: examples and commands on the built program, code and generated text against their files, and the form of all pages.

    .ci/pages/pages.py [PROGRAM]     crates/nagsched/out/nagsched if no program is named

A part of the gate. It names each difference, and then ends with status 1. Anchors (.ci/pages/anchors.py) mark examples and code. .ci/pages/generated.py makes the
generated text, and .ci/pages/style.py has the rules of form. A command of a page that isn't run here has to be listed in .ci/pages/commands.py, with the part of the
gate that runs it, or with the reason why none does.
"""
import ast
import pathlib
import re
import subprocess
import sys
import textwrap

import anchors
import commands
import figures
import generated
import messages
import promises
import style

sys.path.append(str(pathlib.Path(__file__).resolve().parents[1] / "program"))
from harness import TOP, Harness
import needs

HARNESS = Harness("pages")
compare = HARNESS.compare
HOST = '{"hosts":[{"name":"h","max_check_attempts":3}]}'
# The two commands that a newcomer looks for: one runs the main job, the other the tests.
FIRST_COMMANDS = ("tools/try.sh", "tools/test.sh")


def program_output(lines, *words):
    """The program's output for these lines."""
    return HARNESS.run(words, "".join(line + "\n" for line in lines).encode())[0].decode()


def on_one_line(block):
    return " ".join(line.strip() for line in block.splitlines()).strip()


def commands_and_answers(block):
    """The commands of a block that shows each with its answer, and the answers."""
    pairs = [re.split(r"\s{2,}", line.strip(), maxsplit=1) for line in block.splitlines()]
    return [pair[0] for pair in pairs], [pair[1] for pair in pairs]


def answers(examples):
    """A whole setup, and calls over it with their answers."""
    calls, told = commands_and_answers(examples["answers"])
    return "".join(line + "\n" for line in told), program_output([on_one_line(examples["whole-setup"]), *calls])


def conversation(examples):
    """The input and the answers of `nagsched live`, in one block."""
    lines = examples["conversation"].splitlines()[1:]
    typed = [line for line in lines if line.startswith(("{", "["))]
    return [line for line in lines if line not in typed], program_output(typed, "live").splitlines()


# For each example, the names that it uses, and the function that returns the wanted and the written text.
EXAMPLES = {
    ("whole-setup", "answers"): answers,
    ("conversation",): conversation,
    ("figures",): lambda ex: (ex["figures"], program_output([on_one_line(ex["whole-setup"])], "check", "--start", "1000")),
    ("drill-input", "drill-output"): lambda ex: (ex["drill-output"], program_output(ex["drill-input"].splitlines(), "drill", "--workers", "1")),
    ("live-input", "live-output"): lambda ex: (ex["live-output"], program_output(ex["live-input"].splitlines(), "live", "--json")),
    ("save-input", "save-output"): lambda ex: (ex["save-output"], program_output(ex["save-input"].splitlines())),
}


def run_examples():
    """Each example by its name; none may be missing or unknown."""
    examples = anchors.examples()
    compare("examples by name", sorted(name for names in EXAMPLES for name in names), sorted(examples))
    for names, pair in EXAMPLES.items():
        if all(name in examples for name in names):
            compare(f"example {' '.join(names)}", *pair(examples))


def printed_refusals(text):
    """Each refusal and each explanation that a page prints after its input: `INPUT`: `LINE`."""
    for given, line in re.findall(r"`([\[{][^`]*)`: `([^`]*)`", text):
        if line.startswith("refused "):
            compare(f"a refusal: {given}", line + "\n", program_output([given] if given.startswith("{") else [HOST, given]))
        elif given.startswith("["):
            compare(f"an explained line: {given}", f"explained {line}\n", program_output([HOST, given], "live", "--explain").partition("\n")[2])
        else:
            compare(f"an explanation: {given}", line + "\n", program_output([given], "check").partition("\n")[2])


def compare_help(text):
    """The commands that a page lists in a table after the anchor `commands` are those of the help."""
    table = text.partition("<!-- commands -->")[2]
    if not table:
        return
    listed = re.findall(r'^\| `(\["\w+"[^`]*\])` \|', table, re.M)
    of_drill = [command for command in listed if command.startswith(('["plugin"', '["moment"'))]
    for subcommand, wanted in (("run", [command for command in listed if command not in of_drill]), ("drill", of_drill)):
        compare(f"the commands in the help of {subcommand}", wanted, re.findall(r"^  (\[\S+\])", program_output([], subcommand, "--help"), re.M))


def compare_explanations(text):
    """The refusals and explanations of a table after the anchor `explained` are the two lines that cases expect."""
    expected = {tuple(file.read_text(encoding="utf-8").splitlines()) for folder in ("explained", "checks") for file in (TOP / "conformance" / folder).glob("*.stdout")}
    for refusal, explanation in re.findall(r"^\| `(refused [^`]*)` \|[^|]*\| `([^`]*)` \|$", text.partition("<!-- explained -->")[2].split("\n\n")[0], re.M):
        compare(f"an explanation that a case expects: {explanation}", True, (refusal, explanation) in expected)


def compare_code():
    """Code that a page shows is in its file as it is, apart from the indentation."""
    for page, name, block in anchors.anchored_blocks("from"):
        file = TOP / name
        whole = file.read_text(encoding="utf-8") if file.is_file() else ""
        parts = [part.strip("\n") for part in re.split(r"^\s*(?://|#) \.\.\n", block, flags=re.M)]
        flat = "\n".join(line.strip() for line in whole.splitlines())
        for part in parts:
            lines = "\n".join(line.strip() for line in textwrap.dedent(part).splitlines())
            compare(f"{page}: code of {name}: {part[:60]!r}", True, bool(lines) and lines in flat)


def signatures():
    """The methods of the Python package: the parameters of each, by name."""
    found = {}
    for node in ast.walk(ast.parse((TOP / "python/nagsched/desks.py").read_text(encoding="utf-8"))):
        if isinstance(node, ast.FunctionDef) and not node.name.startswith("_"):
            for argument in (*node.args.args, *node.args.kwonlyargs):
                argument.annotation = None
            found.setdefault(node.name, set()).add(re.sub(r"^self(, )?", "", ast.unparse(node.args)))
    return found


def compare_methods(page):
    """The methods that the page on Python names with parameters have these parameters."""
    known = signatures()
    for name, parameters in re.findall(r"`(\w+)\(([^`]*)\)`", anchors.text_of(page)):
        if name in known:
            compare(f"{page.name}: parameters of {name}", True, parameters in known[name])


def compare_crates():
    """The picture of crates/README.md has each crate of crates.txt, and none before one that uses it."""
    lines = [line.split(":") for line in anchors.text_of(TOP / "crates.txt").splitlines() if not line.startswith("#")]
    uses = {name.split()[0]: used.split() for name, used in lines}
    picture = re.findall(anchors.BLOCK, anchors.text_of(TOP / "crates/README.md"), re.S | re.M)[0]
    shown = [word for word in re.findall(r"\w+", picture) if word in uses]
    compare("the crates in the picture", sorted(uses), sorted(shown))
    compare("crates that the picture has before one that uses them", [], [name for place, name in enumerate(shown) if {*uses[name]} & {*shown[:place]}])


def compare_messages():
    """The texts in code are found in each language, and comments aren't."""
    for name, code in (
        ("a.py", '"""It is given up."""\nprint(f"{1}: it is given up")'),
        ("a.c", '/* "it is given up" */ puts("it is \\"given up\\""); // it is "given up"'),
        ("a.sh", "# it is 'given up'\necho 'it is given up'"),
    ):
        found = [fault for _, text in messages.texts_of(name, code) for fault in messages.faults_of(text, style.WORDS)]
        compare(f"plainer words for messages in {name}", 1, len(found))


def main():
    run_examples()
    compare_messages()
    compare_crates()
    compare_methods(TOP / "docs/embedding-python.md")
    for page in anchors.PAGES:
        text = anchors.text_of(page)
        printed_refusals(text)
        compare_help(text)
        compare_explanations(text)
        compare(f"{anchors.name_of(page)}: generated text (run .ci/pages/generated.py)", generated.page_with_generated_text(text), text)
    compare("the pages list the commands", 1, sum("<!-- commands -->" in anchors.text_of(page) for page in anchors.PAGES))
    compare_code()
    kit = needs.kit_version()
    if kit is None:
        print("pages: passed over the kit on README: rt isn't on the path")
    else:
        compare("the logic of the kit on README", needs.logic_of(kit), needs.logic_of(needs.wanted_kit()))
    compare("the form of the pages", [], list(style.all_faults()))
    compare("figures that no file has", [], list(figures.typed_figures()))
    compare("files of results that don't say how they were measured", [], list(figures.files_without_source()))
    compare("cited clauses that no contract has", [], list(promises.missing()))
    beginning = anchors.text_of(TOP / "README.md").splitlines()[:40]
    compare("the commands in README's first 40 lines", [], [command for command in FIRST_COMMANDS if command not in beginning])
    commands.check(HARNESS.program, anchors.PAGES, compare)
    for argument in ("--crates", "check_queue"):
        listed = subprocess.run([sys.executable, TOP / "tools/map.py", argument], stdout=subprocess.PIPE, text=True)
        compare(f"tools/map.py {argument}", (0, True), (listed.returncode, "check_queue" in listed.stdout))
    HARNESS.end()


main()
