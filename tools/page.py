"""The programs of docs/BINDINGS.md, and the commands that make and run them.

A section of the page that is named for a language has a program, in a block of that language, which
proves a statement and judges the proof. Its indented lines are the commands, in order, in a folder
where `bundle` is an unpacked bundle. The table in the section `A bundle` says what stands in a
clone for the places of a bundle. The sections `A protocol` and `Several heights` have a program for
each of two languages, and its command, which is run in the same folder as that language's other
program.
"""
import json
import os
import pathlib
import re
import subprocess

# The name that the page gives to an unpacked bundle.
BUNDLE = "bundle"
PAGE = pathlib.Path(__file__).resolve().parent.parent / "docs" / "BINDINGS.md"
# Of each language what its commands need, the files of the section's blocks, the one with the
# proof, and the line where the proof is accepted.
LANGUAGES = {
    "Python": (["python3"], {"python": "sevens.py"}, "proof.json", "verified\n"),
    "Rust": (["cargo", "cc"], {"rust": "sevens/src/main.rs"}, "proof.json", "verified\n"),
    "C": (["cc"], {"c": "sevens.c", "json": "sevens.json"}, "claims.json", '{"verified":true}\n'),
}
# Of each section about protocols and each language that has a program there, the kind of its block,
# its file, and what its command begins with.
PROTOCOLS = {
    heading: {
        "Python": ("python", f"{name}.py", "site/bin/python "),
        "Rust": ("rust", f"bundle/rust/examples/{name}.rs", "cargo "),
    }
    for heading, name in (("A protocol", "protocol"), ("Several heights", "heights"))
}


class Fault(Exception):
    """Why a program fails its test."""


def section(heading):
    """The page's section under a heading, such as a language."""
    text = PAGE.read_text(encoding="utf-8")
    return re.search(rf"^## {heading}\n(.*?)^## ", text, re.M | re.S)[1]


def block(heading, kind):
    """The text of a section's block of a kind."""
    return re.search(rf"^```{kind}\n(.*?)^```$", section(heading), re.M | re.S)[1]


def blocks(language):
    """The files that the section's blocks stand for, with their texts."""
    _, files, *_ = LANGUAGES[language]
    return {file: block(language, kind) for kind, file in files.items()}


def protocols():
    """The texts of the programs of protocols that only the page has, by their files."""
    programs = {heading: it["Python"] for heading, it in PROTOCOLS.items()}
    return {file: block(heading, kind) for heading, (kind, file, _) in programs.items()}


def placed(text, places):
    """A text with these places in those of the page."""
    for place, other in places.items():
        text = text.replace(place, other)
    return text


def commands(heading, places):
    """A section's commands, with these places in those of the page."""
    text = re.sub(r"^```.*?^```$", "", section(heading), flags=re.M | re.S)
    return re.findall(r"^    (\S.*)$", placed(text, places), re.M)


def places_in_clone():
    """What stands in a clone for each place of a bundle, by the page's table."""
    rows = re.findall(r"^\| `(bundle/\S+)` \| `(circle/\S+)` \|", section("A bundle"), re.M)
    return dict(rows)


def run(room, line, env):
    """What a line writes in a folder, its status, and what it writes on standard error."""
    how = {"cwd": room, "env": env, "capture_output": True, "text": True, "errors": "replace"}
    ran = subprocess.run(["bash", "-c", line], stdin=subprocess.DEVNULL, check=False, **how)
    return ran.stdout, ran.returncode, ran.stderr


def write_files(room, language):
    """Writes the section's files whose folders are there."""
    for name, text in blocks(language).items():
        if (room / name).parent.is_dir():
            (room / name).write_text(text, encoding="utf-8")


def damage(path):
    """Changes a number of the proof in a file."""
    value = json.loads(path.read_text(encoding="utf-8"))
    value.get("proof", value)["lambdas"][0][0] ^= 1
    path.write_text(json.dumps(value), encoding="utf-8")


def environment(room):
    """The environment of the commands in a folder."""
    env = {**os.environ, "CARGO_NET_OFFLINE": "true", "PIP_NO_INDEX": "1"}
    env["CARGO_TARGET_DIR"] = str(room / "target")
    return {name: value for name, value in env.items() if name != "CIRCLE_LIBRARIES"}


def try_program(room, language, places):
    """Makes a language's program in a folder and runs it, with these places in those of the page.
    It is to accept its own proof, and to refuse that proof once it is damaged. Then runs the
    language's programs of protocols."""
    *_, proof, accepted = LANGUAGES[language]
    env = environment(room)
    for line in commands(language, places):
        write_files(room, language)
        said = run(room, line, env)
        if said[1] or "verify" in line.split() and said[0] != accepted:
            raise Fault(f"{line}: {said}")
    damage(room / proof)
    said = run(room, line, env)
    if not said[1] or said[0] == accepted:
        raise Fault(f"{line}, of a damaged proof: {said}")
    for heading, programs in PROTOCOLS.items():
        if language in programs:
            try_protocol(room, heading, programs[language], places)


def try_protocol(room, heading, program, places):
    """Runs a section's program of a protocol, which is to verify its own proofs. A file that is
    there is to be the one that the page shows."""
    kind, file, begin = program
    path, text = room / placed(file, places), block(heading, kind)
    if not path.exists():
        path.write_text(text, encoding="utf-8")
    if path.read_text(encoding="utf-8") != text:
        raise Fault(f"the page shows another program than {path}")
    (line,) = (it for it in commands(heading, places) if it.startswith(begin))
    said = run(room, line, environment(room))
    if said[:2] != ("verified\n", 0):
        raise Fault(f"{line}: {said}")
