#!/usr/bin/env python3
"""Takes the lines of a script by hand, and answers each at once.

shell.py [SCRIPT] [--program PROGRAM]: begins with an empty script, or behind the lines of a file. Each line that is
typed is put behind those before, the whole script runs again, and its last answer is printed. A bad line is told, and
isn't taken; nor is one at which a limit is reached.

    undo          takes the last line back
    script        prints the lines so far with their answers
    save FILE     writes the script
    chart FILE    draws it, as an SVG or, where the name ends with .html, as a page (tools/chart.py)
    help [WORD]   these words, or the lines that begin with a word
    quit          ends, as the end of input does

The tabulator key completes words. The program is the one that ./prove made, or that of a release.
"""

import argparse
import os
import pathlib
import subprocess
import sys

import bad_line
import tracing

SECONDS = 60
OWN_WORDS = ("undo", "script", "save", "chart", "help", "quit")


class Shell:
    """The script so far, and its answers."""

    def __init__(self, program: str):
        self.program = program
        self.grammar = bad_line.read_grammar()
        self.lines, self.answers = [], []

    def run(self, lines: list) -> tuple:
        """The status of a script and the answers of its lines, without their numbers."""
        script = "".join(f"{line}\n" for line in lines).encode("utf-8", "surrogateescape")
        ended = subprocess.run([self.program, "run"], input=script, capture_output=True, timeout=SECONDS, check=False)
        return ended.returncode, [line.partition(" ")[2] for line in ended.stdout.decode("ascii", "replace").splitlines()]

    def take(self, line: str) -> str:
        """What is answered to a line. It stays where it is good and no limit is reached."""
        lines = [*self.lines, line]
        script = "\n".join(lines).encode("utf-8", "surrogateescape")
        if fault := bad_line.first_fault(self.grammar, script):
            return "\n".join(bad_line.told(fault, self.grammar))
        status, answers = self.run(lines)
        if status:
            return f"{answers[-1] if answers else ''} (status {status}; the line isn't taken)"
        self.lines, self.answers = lines, answers
        return answers[-1]

    def load(self, file: str) -> str:
        """Begins with the lines of a file."""
        lines = pathlib.Path(file).read_text(encoding="utf-8", errors="surrogateescape").removesuffix("\n").split("\n")
        if fault := bad_line.first_fault(self.grammar, "\n".join(lines).encode("utf-8", "surrogateescape")):
            return "\n".join(bad_line.told(fault, self.grammar))
        status, answers = self.run(lines)
        if status:
            return f"{file} ends with status {status}, so nothing of it is taken"
        self.lines, self.answers = lines, answers
        return f"{len(lines)} lines of {file}; the last answer is {answers[-1]}"

    def do(self, line: str) -> str:
        """What is said to a line that is typed, be it of a script or a word of this shell."""
        word, _, rest = line.partition(" ")
        if word not in OWN_WORDS:
            return self.take(line)
        return getattr(self, f"do_{word}")(rest.strip())

    def do_undo(self, _: str) -> str:
        if not self.lines:
            return "there is no line to take back"
        self.answers.pop()
        return f"taken back: {self.lines.pop()}"

    def do_script(self, _: str) -> str:
        rows = enumerate(zip(self.lines, self.answers), 1)
        return "\n".join(f"{number:4} {line:<44} {answer}" for number, (line, answer) in rows)

    def do_save(self, file: str) -> str:
        if not file:
            return "save FILE"
        pathlib.Path(file).write_text("".join(f"{line}\n" for line in self.lines), encoding="utf-8", errors="surrogateescape")
        return f"{len(self.lines)} lines are in {file}"

    def do_chart(self, file: str) -> str:
        import chart

        if not file:
            return "chart FILE"
        script = pathlib.Path(f"{file}.txt")
        self.do_save(str(script))
        try:
            draw = chart.page if file.endswith(".html") else chart.draw
            pathlib.Path(file).write_text(draw(self.program, script), encoding="utf-8")
        except tracing.CannotTrace as error:
            return f"no chart: {error}"
        finally:
            script.unlink()
        return f"the chart is in {file}"

    def do_help(self, word: str) -> str:
        forms = self.grammar.forms.get(word, [])
        return "\n".join(form.spelling for form in forms) or __doc__.partition("\n\n")[2].strip()

    def do_quit(self, _: str) -> str:
        raise EOFError

    def completions(self, typed: str) -> list:
        """What may stand at the end of a line that is begun."""
        words = typed.split(" ")
        if len(words) == 1:
            known = [*sorted(self.grammar.forms), *OWN_WORDS]
        else:
            form = self.grammar.form_for([word.encode("utf-8", "replace") for word in words])
            at = len(words) - 2
            known = self.words_for(form.kinds[at]) if form and at < len(form.kinds) else []
        return [word for word in known if word.startswith(words[-1])]

    def words_for(self, kind: bad_line.Kind) -> list:
        """The words that a kind takes, or the nodes that there are."""
        if kind.name == "node":
            return [line.split(" ")[1] for line in self.lines if line.startswith("node ")]
        quoted = bad_line.QUOTED.findall(kind.takes)
        return [word for word in quoted if kind.is_taken(word.encode())]


def complete_by(shell: Shell):
    """Lets the tabulator key complete words, where there is a terminal that can."""
    try:
        import readline
    except ImportError:
        return
    readline.set_completer_delims(" ")
    readline.set_completer(lambda _, place: ([f"{word} " for word in shell.completions(readline.get_line_buffer())] + [None])[place])
    readline.parse_and_bind("tab: complete")


def words_of(words: list) -> argparse.Namespace:
    parser = argparse.ArgumentParser(prog="shell.py", description="Takes the lines of a script by hand, and answers each at once.")
    parser.add_argument("--program", default=tracing.own_program())
    parser.add_argument("script", nargs="?", default="", help="begins behind the lines of this file")
    return parser.parse_args(words)


def converse(shell: Shell):
    """Takes line after line to the end of input."""
    is_typed = sys.stdin.isatty()
    if is_typed:
        complete_by(shell)
        print("a line of a script is answered at once; help tells more, and quit ends")
    while True:
        try:
            line = input(f"{len(shell.lines) + 1} " if is_typed else "")
            print(shell.do(line), flush=True)
        except EOFError:
            return
        except KeyboardInterrupt:
            print()
        except (OSError, subprocess.TimeoutExpired) as error:
            print(error)


def main(words: list) -> int:
    asked = words_of(words)
    if not asked.program:
        print("shell.py: the proved program isn't there, which ./prove makes; --program PROGRAM names another one", file=sys.stderr)
        return 1
    shell = Shell(os.path.abspath(asked.program))
    if asked.script:
        try:
            print(shell.load(asked.script))
        except OSError as error:
            print(f"shell.py: {error}", file=sys.stderr)
            return 1
    converse(shell)
    return 0


if __name__ == "__main__":
    sys.exit(main(sys.argv[1:]))
