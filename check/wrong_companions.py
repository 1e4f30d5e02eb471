#!/usr/bin/env python3
"""Tests the tests of the companions: each wrong program must make one of them fail.

usage: check/wrong_companions.py [--jobs N] [NAME ..]

A wrong program is a copy of tools/ with one small change. The tests that concern it are run on the copy; it is caught
if one of them fails, and not if they can't be run. NAME is a package of tools/pressroom, or the name of a wrong program;
without it all are tested, N at a time (2). It needs python3-pytest and python3-hypothesis, and takes some minutes, so
the gate doesn't run it. The last line is `N passed, M failed`, and the status is 1 if one passed its tests.
"""
import argparse
import concurrent.futures
import os
import shutil
import subprocess
import sys
import tempfile
from typing import NamedTuple

sys.dont_write_bytecode = True
from trial import Count

TOP = os.path.normpath(os.path.join(os.path.dirname(os.path.abspath(__file__)), ".."))
PYTHON = "/usr/bin/python3"
# The status of pytest where a test failed; others are that tests could not be run.
FAILED = 1
# What the tests of a wrong program may take: bytes of memory, seconds.
MEMORY, SECONDS = 4 << 30, 600


class Wrong(NamedTuple):
    """A wrong program: its name, the module below tools/pressroom, the text that is replaced, which the module has
    once, what replaces it, and the tests below tools/tests that concern it."""

    name: str
    module: str
    old: str
    new: str
    tests: str


WRONG = (
    # The house file.
    Wrong("fault_of_the_line_before", "house/toml_lines.py", "self.ends, self.at) + 1", "self.ends, self.at)", "test_house.py"),
    Wrong("faults_out_of_order", "house/house_keys.py", "key=lambda pair: pair[0]", "key=lambda pair: -pair[0]", "test_house.py"),
    Wrong("true_is_a_number", "house/forms.py", "if isinstance(value, bool) or not isinstance(value, (int, float)) or", "if not isinstance(value, (int, float)) or", "test_house.py"),
    Wrong("odd_sections", "house/records.py", "2 to 128\", step=2)", "2 to 128\", step=1)", "test_house.py"),
    Wrong("press_forgets_the_house", "house/house.py", "**self.tone(keys, dpi, common))", "**self.tone(keys, dpi, base))", "test_house.py"),
    Wrong("unknown_keys_pass", "house/house_keys.py", "if name in self.left:", "if not self.left:", "test_house.py"),
    Wrong("zone_of_no_site", "house/house.py", "if zone not in zones:", "if False:", "test_house.py night/test_edition.py"),
    Wrong("site_of_no_house", "house/house.py", "if name not in known:", "if False:", "test_house.py"),
    Wrong("plate_without_gutter", "house/records.py", "left + 2 * width + self.pixels(self.gutter) + right", "left + 2 * width + right", "test_house.py"),
    # Plans.
    Wrong("truth_as_a_number_of_a_plan", "plans/form.py", "and not isinstance(value, bool) and 0 <=", "and 0 <=", "test_plans.py"),
    Wrong("page_that_is_not_there", "plans/form.py", "return False\n    return all(1 <=", "return True\n    return all(1 <=", "test_plans.py"),
    Wrong("page_behind_the_last", "plans/form.py", "<= counts.get(item[\"section\"], 0)", "<= counts.get(item[\"section\"], 0) + 1", "test_plans.py"),
    Wrong("row_without_a_128th", "plans/ring.py", "return row + -(-row // 128) + 2", "return row + row // 128 + 2", "plans/test_ring.py"),
    Wrong("ring_of_too_few_places", "plans/ring.py", "while count > LEAST and", "while count > 1 and", "plans/test_ring.py"),
    Wrong("odd_page_on_the_left", "plans/sheets.py", "key=lambda number: number % 2)", "key=lambda number: -(number % 2))", "test_plans.py"),
    Wrong("memory_in_kilobytes", "plans/ring.py", "int(rest.split()[0]) << 10", "int(rest.split()[0])", "plans/test_ring.py"),
    # TIFF.
    Wrong("byte_order_of_the_machine", "tiff/tiff.py", "if (self.order == \"<\") != (sys.byteorder == \"little\"):", "if False:", "test_tiff.py"),
    Wrong("size_not_compared", "tiff/tiff.py", "if place + size > self.size:", "if False:", "test_tiff.py"),
    Wrong("run_too_short", "tiff/tiff.py", "* (257 - head)", "* (256 - head)", "test_tiff.py"),
    Wrong("no_operation_as_a_run", "tiff/tiff.py", "elif head > 128:", "elif head >= 128:", "test_tiff.py"),
    Wrong("last_strip_as_long_as_others", "tiff/tiff.py", "return min(self.each, self.length - strip * self.each)", "return self.each", "test_tiff.py"),
    Wrong("last_of_a_tag", "tiff/tiff.py", "if tag not in self.fields and kind in TYPES:", "if kind in TYPES:", "test_tiff.py"),
    Wrong("short_rows_pass", "tiff/tiff.py", "if len(row) < self.row_bytes:", "if False:", "test_tiff.py"),
    Wrong("strips_not_counted", "tiff/tiff.py", "if self.fields[tag][1] < self.strips * planes:", "if False:", "test_tiff.py"),
    Wrong("row_rounded_down", "tiff/tiff.py", "else self.samples) + 7) // 8", "else self.samples)) // 8", "test_tiff.py"),
    # Files and arguments.
    Wrong("pipes_are_opened", "base/files.py", "if not stat.S_ISREG(mode):", "if False:", "test_tiff.py test_house.py"),
    Wrong("one_byte_too_many", "base/files.py", "if len(data) > most:", "if len(data) > most + 1:", "test_files.py"),
    Wrong("no_nearest_option", "base/command_line.py", "{nearest(name, known)}", "", "test_commands.py"),
    Wrong("wide_help", "base/command_line.py", "WIDTH = 80", "WIDTH = 120", "test_commands.py"),
    # Proofs and ink keys.
    Wrong("run_of_one_less", "proof/ppf_file.py", "bytes((257 - same, value))", "bytes((256 - same, value))", "test_ppf.py"),
    Wrong("parentheses_as_they_are", "proof/ppf_file.py", "and code not in b\"()\\\\\"", "", "test_ppf.py"),
    Wrong("long_lines", "proof/ppf_file.py", "LINE = 76", "LINE = 90", "test_ppf.py"),
    Wrong("factor_rounded_down", "proof/ppf_file.py", "round(dpi / RESOLUTION)", "int(dpi / RESOLUTION)", "test_ppf.py"),
    Wrong("extent_without_the_factor", "proof/ppf_file.py", "number(side * factor * 72 / dpi)", "number(side * 72 / dpi)", "test_ppf.py"),
    # Versions.
    Wrong("placed_files_stay", "versions/late.py", "def undo(self) -> None:", "def undo(self) -> None:\n        return\n\n    def undone(self) -> None:", "test_late.py"),
    # Reading of PDFs.
    Wrong("calculator_keeps_the_order", "reading/functions.py", "values[-2:] = [values[-1], values[-2]]", "values[-2:] = [values[-2], values[-1]]", "reading/test_functions.py"),
    Wrong("quotient_rounded_down", "reading/functions.py", "math.trunc(divided(a, b))", "math.floor(divided(a, b))", "reading/test_functions.py"),
    Wrong("bound_belongs_to_the_part_below", "reading/functions.py", "side=\"right\")", "side=\"left\")", "reading/test_functions.py"),
    Wrong("range_not_kept", "reading/functions.py", "np.clip(call(given), limits[:, :1], limits[:, 1:])", "call(given)", "reading/test_functions.py"),
    Wrong("groups_are_on", "reading/optional.py", "self.base = name(get(default, b\"/BaseState\")) != b\"/OFF\"", "self.base = True", "reading/test_optional.py"),
    Wrong("states_of_no_print", "reading/optional.py", "if name(get(usage, b\"/Event\")) == b\"/Print\":", "if False:", "reading/test_optional.py"),
    Wrong("not_is_and", "reading/optional.py", "return not values[0] if values else True", "return all(values)", "reading/test_optional.py"),
    Wrong("escaped_parenthesis_ends_a_string", "reading/tokens.py", "if found[0] == b\"\\\\\":\n            at += 1", "if found[0] == b\"\\\\\":\n            at += 0", "reading/test_tokens.py"),
    Wrong("image_ends_in_its_data", "reading/tokens.py", "max(0, least - 1)):", "first):", "reading/test_tokens.py"),
    Wrong("names_as_they_are_written", "reading/tokens.py", "if b\"#\" in word else word", "if False else word", "reading/test_tokens.py"),
    # The night.
    Wrong("stamp_not_compared", "night/take.py", "if stamp_of(status) != found.stamp:", "if False:", "night/test_take.py"),
    Wrong("empty_files_are_taken", "night/take.py", "if not self.copied:", "if False:", "night/test_take.py"),
    Wrong("ready_without_an_end", "night/ready.py", "[*lines, \"end\"]", "[*lines]", "night/test_edition.py"),
    Wrong("reason_as_it_is_written", "night/ready.py", "shown(ready.resend)", "ready.resend", "night/test_edition.py"),
    Wrong("short_sum", "night/ready.py", "hexdigest()[:8]", "hexdigest()[:7]", "night/test_edition.py"),
    Wrong("truncated_messages_pass", "night/wire.py", "if flags & (socket.MSG_TRUNC | socket.MSG_CTRUNC) or len(data) > MESSAGE:", "if False:", "night/test_wire.py"),
    Wrong("other_ready_seen_as_the_same", "night/method_folder.py", "text if found == text.encode() else \"\"", "text", "night/test_send.py"),
    Wrong("links_are_followed", "night/method_folder.py", "inner = os.open(name, FOLDER, dir_fd=held)", "inner = os.open(name, os.O_RDONLY, dir_fd=held)", "night/test_send.py"),
    Wrong("host_key_not_named", "night/method_rsync.py", "host_key = CHANGED_KEY in text or UNKNOWN_KEY in text", "host_key = False", "night/test_send.py"),
    Wrong("broken_pipe_of_ssh", "night/method_rsync.py", "own = SSH_FAILED if line.startswith(\"ssh: \") else status", "own = status", "night/test_send.py"),
    Wrong("common_page_of_a_zone", "night/edition.py", "mine if mine in keys else its", "its", "night/test_edition.py"),
    Wrong("making_without_the_program", "night/edition.py", "house.sections[section], number, program, __version__]", "house.sections[section], number, __version__]", "night/test_edition.py"),
    Wrong("date_of_the_house_first", "night/edition.py", "return own.date or (named[0] if named else house.night.date)", "return house.night.date or own.date", "night/test_edition.py"),
    Wrong("blank_pages_take_files", "night/edition.py", "page.key == key and not page.blank", "page.key == key", "night/test_edition.py"),
    Wrong("methods_that_do_not_take_it", "night/house_reader.py", "        if way is None:", "        if False:", "night/test_edition.py"),
    # The board.
    Wrong("request_of_another_site", "board/actions.py", "if site is not None and site not in (\"same-origin\", \"none\"):", "if False:", "board"),
    Wrong("form_of_another_origin", "board/actions.py", "if origin is not None and urlsplit(origin).netloc != headers.get(\"Host\"):", "if False:", "board"),
    Wrong("any_token", "board/actions.py", "if not hmac.compare_digest(token.encode(), self.token(user).encode()):", "if False:", "board"),
    Wrong("user_named_by_anybody", "board/actions.py", "name = headers.get(USER_HEADER, \"\") if self.trusts else \"\"", "name = headers.get(USER_HEADER, \"\")", "board"),
    Wrong("anybody_may_act", "board/actions.py", "(not self.actors or user in self.actors)", "True", "board"),
    Wrong("answer_of_another_user", "board/actions.py", "return told if told is not None and told.user == user else None", "return told", "board"),
    Wrong("cancel_without_its_name", "board/actions.py", "if command == \"cancel\" and form.get(\"again\", \"\").strip() != found[\"edition\"]:", "if False:", "board"),
    Wrong("refused_command_told_as_done", "board/actions.py", "    if not done and seen:", "    if False:", "board"),
    Wrong("kept_told_as_acknowledged", "board/view.py", "    \"kept\": \"sent\",", "    \"kept\": \"acknowledged\",", "board"),
    Wrong("line_ends_in_a_text", "board/view.py", "return one_line(value) if type(value) is str else value", "return value", "board"),
    Wrong("faults_not_by_time", "board/view.py", "return sorted(items, key=lambda item: (item[\"leave_by\"] or \"9999\", item[\"since\"] or \"9999\"))", "return list(items)", "board"),
    Wrong("old_status_told_as_live", "board/link.py", "self.fault is None and now - self.at <= LIVE", "self.fault is None", "board"),
    Wrong("faulty_status_told_as_live", "board/link.py", "self.state is not None and self.fault is None and", "self.state is not None and", "board"),
    Wrong("any_host", "board/app.py", "if not board.guard.trusts and not HOSTS.fullmatch(request.host):", "if False:", "board"),
    Wrong("scripts_in_pages", "board/app.py", "script-src 'self'", "script-src 'self' 'unsafe-inline'", "board"),
    Wrong("page_told_as_unchanged", "board/app.py", "return f\"{seen.stamp}-{minute}", "return f\"{minute}", "board"),
    Wrong("approval_of_another_file", "board/pages/pair.html", "name=\"arrival\" value=\"{{ page.arrival or '' }}\"", "name=\"arrival\" value=\"{{ page.newest or '' }}1\"", "board"),
)  # fmt: skip


def changed(wrong, folder):
    """Makes a wrong program in a copy of tools/. Returns what is wrong with the change itself, or ''."""
    path = os.path.join(folder, "tools", "pressroom", wrong.module)
    with open(path, encoding="utf-8") as file:
        text = file.read()
    if text.count(wrong.old) != 1:
        return f"{wrong.module} has its text {text.count(wrong.old)} times"
    with open(path, "w", encoding="utf-8") as file:
        file.write(text.replace(wrong.old, wrong.new))
    return ""


def passed(wrong):
    """Returns why a wrong program isn't caught; '' if it is."""
    with tempfile.TemporaryDirectory() as folder:
        for name in ("tools", "docs", "examples", "package"):
            shutil.copytree(os.path.join(TOP, name), os.path.join(folder, name), symlinks=True)
        shutil.copy(os.path.join(TOP, "pyproject.toml"), folder)
        fault = changed(wrong, folder)
        if fault:
            return fault
        tests = [os.path.join("tools", "tests", test) for test in wrong.tests.split()]
        environment = os.environ | {"PYTHONDONTWRITEBYTECODE": "1", "PLATEROOM": ""}
        command = ["prlimit", f"--as={MEMORY}", PYTHON, "-m", "pytest", "-x", *tests]
        try:
            answer = subprocess.run(
                command, cwd=folder, capture_output=True, text=True, env=environment, timeout=SECONDS
            )
        except subprocess.TimeoutExpired:
            return f"{wrong.tests} doesn't end in {SECONDS} s"
    if answer.returncode == FAILED:
        return ""
    if answer.returncode == 0:
        return f"{wrong.tests} passes"
    return f"the tests can't be run:\n{answer.stdout[-600:]}{answer.stderr[-600:]}"


def chosen(names):
    """Returns the wrong programs of these packages or names, or None if there are none of one."""
    found = [wrong for wrong in WRONG if not names or {wrong.name, wrong.module.split("/")[0]} & set(names)]
    known = {wrong.name for wrong in WRONG} | {wrong.module.split("/")[0] for wrong in WRONG}
    return found if set(names) <= known else None


def main():
    parser = argparse.ArgumentParser(description=__doc__, formatter_class=argparse.RawDescriptionHelpFormatter)
    parser.add_argument("--jobs", type=int, default=2, metavar="N", help="so many at a time (2)")
    parser.add_argument("names", nargs="*", metavar="NAME", help="a package or a wrong program")
    words = parser.parse_args()
    wrong = chosen(words.names)
    if wrong is None:
        parser.error("no such package or wrong program")
    count = Count()
    with concurrent.futures.ThreadPoolExecutor(max(1, words.jobs)) as pool:
        for one, fault in zip(wrong, pool.map(passed, wrong)):
            count.holds(f"{one.module}: {one.name}", fault)
    count.part("wrong programs")
    return count.end()


if __name__ == "__main__":
    sys.exit(main())
