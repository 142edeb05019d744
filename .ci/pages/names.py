#!/usr/bin/env python3
"""Looks up the names that the pages put between backticks, so that no page names something that doesn't exist.

    .ci/pages/names.py

Every text that looks like a function, a clause, a definition, a test, a must-fail edit, an option or a file is a name. A file has to exist, at the top
or in a folder of a crate. For any other name, each word has to be in some source, script, case or file name.
"""
import re
import subprocess
import sys

from anchors import PAGES, TOP, name_of, text_of, without_code

ENDINGS = (".rt", ".antt", ".md", ".py", ".sh", ".json", ".txt", ".out", ".edit", ".tsv", ".svg", ".c")
WORD = re.compile(r"[A-Za-z_][A-Za-z0-9_]*")
NAME = re.compile(r"[A-Za-z_][A-Za-z0-9_]*(::[A-Za-z_][A-Za-z0-9_]*)*(<[A-Z]>)?(\(\))?")
FILE = re.compile(r"[\w./-]*\w\.\w+")
# Names of the kit and of Nagios, which are in no file of ours.
OF_OTHERS = {"Backoff::snooze", "Shared::exchange", "std::sync::atomic::raw", "test_checks.c", "retain_state_information",
             "use_retained_scheduling_info", "retention.dat", "group_wait", "group_interval", "repeat_interval", "mute_time_intervals", "send_resolved",
             "notification_interval", "notification_period", "first_notification_delay", "contact_groups", "active_time_intervals"}
# The files of a site, which are in its folder.
OF_A_SITE = {"/status.json", "setup.json", "commands.json", "periods.json", "passive.json", "monitor.json", "mirrors.json", "groups.json", "inventory.json",
             "directory.json", "remarks.json", "runners.json", "my.setup.json", "part-1.json", "part-2.json"}


def files():
    """The files of the repository except the pages."""
    listed = subprocess.run(["git", "ls-files"], cwd=TOP, stdout=subprocess.PIPE, text=True, check=True).stdout.splitlines()
    return [TOP / name for name in listed if TOP / name not in PAGES]


def words_of(all_files):
    """Each word in a file, or in a file's name."""
    words = set()
    for file in all_files:
        words.update(WORD.findall(file.stem))
        words.update(WORD.findall(file.read_text(encoding="utf-8", errors="replace")))
    return words


def quoted_names(page):
    """The texts between backticks on a page, without its code blocks."""
    return re.findall(r"`([^`\n]+)`", without_code(text_of(page)))


def is_missing(name, all_files, words):
    """Whether this looks like a name, and doesn't exist."""
    if name in OF_OTHERS or name in OF_A_SITE:
        return False
    if name.endswith(ENDINGS) and FILE.fullmatch(name):
        return not any(str(file).endswith("/" + name.removeprefix("./")) for file in [*all_files, *PAGES])
    if name.endswith("_") or not NAME.fullmatch(name) or not ("_" in name or "::" in name):
        return False
    return any(word not in words for word in WORD.findall(name))


def main():
    all_files = files()
    words = words_of(all_files)
    names = [(page, name) for page in PAGES for name in quoted_names(page)]
    wrong = sorted({f"{name_of(page)}: {name}" for page, name in names if is_missing(name, all_files, words)})
    for line in wrong:
        print(f"names: {line} isn't there")
    print(f"names: {len(names)} looked up\nnames: {0 if wrong else 1} passed, {len(wrong)} failed")
    return 1 if wrong else 0


if __name__ == "__main__":
    sys.exit(main())
