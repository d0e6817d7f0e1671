#!/usr/bin/env python3
"""Tries Neovim with the set-up of docs/editors.md, in a terminal.

    python3 scripts/editors/neovim.py PROGRAM [NVIM]     PROGRAM as crates/gqls/out/gqls; NVIM is `nvim` where it is not said

It wants tmux, and Neovim 0.7 or later. The set-up is read from the page, "## Neovim", and "### Neovim 0.7" for that version, and goes
into a fresh home as it stands. Then keys are pressed as in "What one sees", and the screen and the saved files are looked at.
The last line is `N passed, M failed`, and the status is 1 where something failed."""
import re
import subprocess
import sys

sys.dont_write_bytecode = True
from screen import Trial, the_block


def version_of(nvim):
    said = subprocess.run([nvim, "--version"], stdout=subprocess.PIPE, text=True).stdout
    return tuple(map(int, re.match(r"NVIM v(\d+)\.(\d+)\.(\d+)", said).groups()))


def run(program, nvim="nvim"):
    version = version_of(nvim)
    print("Neovim", ".".join(map(str, version)))
    old = version < (0, 8, 0)
    trial = Trial(program)
    init = the_block("### Neovim 0.7" if old else "## Neovim", "nvim_create_autocmd")
    trial.write(f"{trial.home}/.config/nvim/init.lua", init)
    trial.start(nvim, "-n", "-o", "s.graphql", "q.graphql")

    def command(words):
        trial.keys("Escape")
        trial.text(f":{words}")
        trial.keys("Enter")

    def goes(window, line, column):
        """Goes into a window, to a place, both counted from 1."""
        command(f"{window}wincmd w")
        command(f"call cursor({line}, {column})")

    def presses(window, line, column, *keys):
        goes(window, line, column)
        for key in keys:
            trial.text(key)

    schema, query = (1, 1), (2, 1)
    hovered = trial.again_until(lambda: presses(*query, 35, "K"), r"Query\.x: Int")
    trial.tell("a hover on the `x` of the query says `Query.x: Int`", hovered, trial.screen())
    if not hovered:
        return trial.end()
    command("1wincmd w")
    trial.step("nothing is marked", lambda screen: "type Query{x:Int}" in screen and "unknown field" not in screen)

    goes(*schema, 12)
    trial.text("ay")
    trial.keys("Escape")
    trial.step("`y` behind the `x` marks `unknown field`", r"Query\{x\} .*unknown field")
    trial.text("u")
    trial.step("undone, the mark is gone", lambda screen: "type Query{x:Int}" in screen and "unknown field" not in screen)

    presses(*query, 12, "K")
    trial.step("a hover on the spread says `fragment A on Query`", r"fragment A on Query(?!\{)")
    goes(*query, 12)
    command("set nohlsearch | echo ''")
    trial.text("gd")
    trial.step("`gd` on the spread goes to the fragment", r"1,24\b")
    trial.text("grr")
    trial.step("`grr` at the fragment lists its spread", r"q\.graphql\|1 col 12")
    command("cclose")

    goes(*query, 24)
    trial.text("grn")
    trial.waits_for(r"New Name")
    trial.keys("C-u")
    trial.text("B")
    trial.keys("Enter")
    renamed = r"query Q\{\.\.\.B\} fragment B on Query\{x\}"
    trial.step("`grn` renames `A` to `B` in both places", renamed)

    goes(*query, 35)
    trial.text("v")
    trial.text("gra")
    trial.step("`gra` on the marked `x` offers \"Extract fragment\"", r"1: Extract fragment")
    trial.text("1")
    trial.keys("Enter")
    trial.step("it puts `...Extracted1` there", r"fragment B on Query\{\.\.\.Extracted1 ?\}")
    trial.step("and the fragment at the end", r"fragment Extracted1 on Query \{")
    goes(*query, 40)
    trial.text("gra")
    trial.step("`gra` on `...Extracted1` offers \"Inline fragment\"", r"1: Inline fragment")
    trial.text("1")
    trial.keys("Enter")
    trial.step("it puts `...on Query {` there", lambda screen: "{...on Query {" in screen and "Extracted1" not in screen)
    command("wall")
    trial.file_is("q.graphql", "query Q{...B} fragment B on Query{...on Query {\nx\n}}")
    trial.project_is_valid()
    return trial.end()


if __name__ == "__main__":
    sys.exit(run(*sys.argv[1:]) if len(sys.argv) in (2, 3) else __doc__)
