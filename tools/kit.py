"""The kit, and how its prover is asked to check one crate over libraries that are left."""
import functools
import os
import pathlib
import re
import shutil
import subprocess

from tools.workspace import SOURCES

# The memory to plan on for a check, in bytes.
MEMORY = 3_500_000_000


def most_at_once():
    """How many crates to check at a time."""
    with open("/proc/meminfo", encoding="utf-8") as file:
        free = 1024 * int(re.search(r"MemAvailable:\s+(\d+)", file.read())[1])
    return max(1, min(len(os.sched_getaffinity(0)), free // MEMORY))


def is_there():
    """Whether the kit's command rt is on the path."""
    return shutil.which("rt") is not None


@functools.lru_cache(maxsize=None)
def folder():
    """The folder of the toolchain."""
    return pathlib.Path(subprocess.check_output(["rt", "doc"], text=True).strip()).parent


@functools.lru_cache(maxsize=None)
def identity():
    """The line that names the kit."""
    return subprocess.check_output(["rt", "version"], text=True).strip()


def libraries(workspace, name):
    """The words that hand the prover the libraries below a crate: those of the repository that
    `rt check` or `rt ci` left in their folders, and the kit's."""
    at = folder()
    for below in ["std", *workspace.libraries[name]]:
        own = workspace.rlib(below)
        yield from ("--extern", f"{below}={own if own.exists() else at / f'rlibs/{below}.rlib'}")
    places = [workspace.rlib(below).parent for below in workspace.below(name)[:-1]]
    for place in [at / "rlibs", *places]:
        yield from ("-L", f"dependency={place}")
    yield from ("--antt-project", at / "rattle/logic/antt-project.json")
    yield from ("--logic-built", at / "logic_built")


def check(workspace, name):
    """The check of the crate, by one process that runs in its folder or a copy of it."""
    words = [folder() / "bin/rattle", "check", "--crate-name", name, workspace.root(name)]
    return [*words, "--jobs", "1", *libraries(workspace, name)]


def copy_sources(workspace, name, to, texts):
    """Copies a crate's sources to a folder, with these texts in place of its own."""
    for part in SOURCES:
        if (workspace.folder(name) / part).is_dir():
            shutil.copytree(workspace.folder(name) / part, pathlib.Path(to, part))
    for path, text in texts.items():
        pathlib.Path(to, path).write_text(text, encoding="utf-8")


def checked(workspace, name, texts, functions, room, kept=None, seconds=None):
    """Checks functions in a copy of the crate that has these texts, made in the folder room, over
    what the folder kept has of earlier checks. Returns the status, or None where the check took
    longer than it may, and what was said."""
    copy_sources(workspace, name, room, texts)
    asked = check(workspace, name)
    for function in functions:
        asked += ["--only", function]
    asked += ["--incremental", kept] if kept else []
    how = {"stdin": subprocess.DEVNULL, "stdout": subprocess.PIPE, "stderr": subprocess.STDOUT}
    try:
        ran = subprocess.run(asked, cwd=room, errors="replace", timeout=seconds, **how)
    except subprocess.TimeoutExpired as ended:
        return None, (ended.stdout or b"").decode(errors="replace")
    return ran.returncode, ran.stdout
