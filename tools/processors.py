"""The kinds of processor that programs and libraries are built for."""
import re

# What each kind has beyond those before it, in the words of /proc/cpuinfo.
KINDS = {
    "x86-64": set(),
    "x86-64-v2": {"cx16", "lahf_lm", "popcnt", "sse4_1", "sse4_2", "ssse3"},
    "x86-64-v3": {"avx", "avx2", "bmi1", "bmi2", "f16c", "fma", "abm", "movbe", "xsave"},
}


def own():
    """The last kind that this machine's processor comes up to."""
    with open("/proc/cpuinfo", encoding="utf-8") as file:
        flags = re.search(r"^flags\s*:(.*)$", file.read(), re.M)
    has = set(flags[1].split()) if flags else set()
    has |= {"abm"} if "lzcnt" in has else set()
    found = "x86-64"
    for name, wanted in KINDS.items():
        if not wanted <= has:
            break
        found = name
    return found


def runs_here(kind):
    """Whether this machine's processor comes up to a kind."""
    names = list(KINDS)
    return names.index(kind) <= names.index(own())
