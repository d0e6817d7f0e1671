#!/usr/bin/env python3
"""Tries Emacs and Eglot with the set-up of docs/editors.md, in a terminal.

    python3 scripts/editors/emacs.py PROGRAM [EMACS]     PROGRAM as crates/gqls/out/gqls; EMACS is `emacs` where it is not said

It wants tmux, and Emacs 29 or later, or Emacs 28 with Eglot. The set-up is read from the page, "## Emacs, with Eglot", and goes into a
fresh home as it stands. Then keys are pressed as in "What one sees", and the screen and the saved files are looked at.
The last line is `N passed, M failed`, and the status is 1 where something failed."""
import subprocess
import sys

sys.dont_write_bytecode = True
from screen import Trial, the_block


def run(program, emacs="emacs"):
    print(subprocess.run([emacs, "--version"], stdout=subprocess.PIPE, text=True).stdout.split("\n")[0])
    trial = Trial(program)
    trial.write(f"{trial.home}/.emacs.d/init.el", the_block("## Emacs, with Eglot", "gqls-contact"))
    trial.start(emacs, "-nw", "--no-splash", "s.graphql", "q.graphql")
    trial.step("Emacs opens the files in the mode GraphQL", r"\(GraphQL")

    def answers(*lines):
        for line in lines:
            trial.text(line)
            trial.keys("Enter")

    def command(name, *lines):
        trial.keys("M-x")
        answers(name, *lines)

    def goes(name, point):
        """Goes into a file, to a point counted from 1."""
        trial.keys("C-g")
        trial.keys("C-x", "b")
        answers(name)
        trial.keys("C-x", "1")
        trial.keys("M-g", "c")
        answers(str(point))

    hovered = trial.again_until(lambda: goes("q.graphql", 35), r"Query\.x: Int")
    trial.tell("at the `x` of the query ElDoc says `Query.x: Int`", hovered, trial.screen())
    if not hovered:
        return trial.end()
    trial.step("the mode line names the server and the folder", r"\[eglot:shop\]")
    trial.step("nothing is marked", lambda screen: "unknown field" not in screen)

    goes("s.graphql", 13)
    trial.text("y")
    trial.step("`y` stands behind the `x`", r"type Query\{xy:Int\}")
    goes("q.graphql", 35)
    trial.step("that makes a mark in the query, which the mode line counts", r"q\.graphql .*Flymake\[1")
    command("flymake-show-buffer-diagnostics")
    trial.step("the list of marks has `unknown field`", r"unknown field")
    goes("s.graphql", 13)
    trial.keys("C-x", "u")
    trial.step("undone, the `y` is gone", r"type Query\{x:Int\}")
    goes("q.graphql", 35)
    trial.step("and the mark too", r"q\.graphql .*Flymake\[0")

    goes("q.graphql", 12)
    trial.step("at the spread ElDoc says `fragment A on Query`", r"(?m)^fragment A on Query")
    trial.keys("M-.")
    trial.keys("C-x", "=")
    trial.step("`M-.` on the spread goes to the fragment", r"point=24 ")
    trial.keys("M-?")
    trial.step("`M-?` at the fragment lists its spread", r"(?s)1: ?query Q\{\.\.\.A\}.*\*xref\*")

    goes("q.graphql", 24)
    command("eglot-rename")
    trial.waits_for(r"Rename .A. to")
    answers("B")
    trial.step("`eglot-rename` renames `A` to `B` in both places", r"query Q\{\.\.\.B\} fragment B on Query\{x\}")

    goes("q.graphql", 35)
    trial.keys("C-Space")
    trial.keys("C-f")
    command("eglot-code-actions")
    trial.step("`eglot-code-actions` on the marked `x` offers \"Extract fragment\"", r"Extract fragment")
    trial.keys("Enter")
    trial.step("it puts `...Extracted1` there", r"fragment B on Query\{\.\.\.Extracted1 ?\}")
    trial.step("and the fragment at the end", r"fragment Extracted1 on Query \{")
    goes("q.graphql", 40)
    command("eglot-code-actions")
    trial.step("`eglot-code-actions` on `...Extracted1` offers \"Inline fragment\"", r"Inline fragment")
    trial.keys("Enter")
    trial.step("it puts `...on Query {` there", lambda screen: "{...on Query {" in screen and "Extracted1" not in screen)
    trial.keys("C-x", "C-s")
    trial.file_is("q.graphql", "query Q{...B} fragment B on Query{...on Query {\nx\n}}")
    trial.project_is_valid()
    return trial.end()


if __name__ == "__main__":
    sys.exit(run(*sys.argv[1:]) if len(sys.argv) in (2, 3) else __doc__)
