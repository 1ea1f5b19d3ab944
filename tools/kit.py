"""What the tools here say to the kit's prover, `rattle`: the crates of crates.txt, and how `rattle` is told of the libraries below one."""

import functools
import pathlib
import subprocess

ROOT = pathlib.Path(__file__).resolve().parent.parent
CRATES = ROOT / "crates"


class NotBuilt(Exception):
    """A library that has to be built first."""


@functools.cache
def folder():
    return pathlib.Path(subprocess.run(["rt", "doc"], check=True, stdout=subprocess.PIPE, text=True).stdout.strip()).parent


@functools.cache
def listed():
    """The libraries that each crate of crates.txt names."""
    lines = [line.partition("#")[0].partition(":") for line in (ROOT / "crates.txt").read_text().splitlines()]
    return {name.split()[0]: names.split() for name, _, names in lines if name.strip()}


@functools.cache
def below(crate, without=()):
    """The repository's libraries below a crate, each after those that it names; without some of those that it names, and what is below those alone."""
    named = [dep for dep in listed()[crate] if dep in listed() and dep not in without]
    return tuple(dict.fromkeys(each for dep in named for each in (*below(dep), dep)))


def rattle(verb, crate, libraries, sources=()):
    """The words that check or build a crate over these libraries: over `sources` as they stand beside it, over the others as `rt ci` or `rt check` built them. They
    are to be said in the crate's folder."""
    words = [folder() / "bin/rattle", verb, "--crate-name", crate, "src/lib.rt", "-L", f"dependency={folder() / 'rlibs'}"]
    for each in ("core", "std"):
        words += ["--extern", f"{each}={folder() / 'rlibs' / each}.rlib"]
    for each in libraries:
        built = CRATES / each / "out/rlib"
        if each in sources:
            words += ["--lib", f"{each}:{','.join(['core', 'std', *listed()[each]])}=../{each}/src/lib.rt"]
        elif (built / f"{each}.rlib").is_dir():
            words += ["--extern", f"{each}={built / each}.rlib", "-L", f"dependency={built}"]
        else:
            raise NotBuilt(f"{each} is not built: run `rt ci`, or `rt check` in crates/{crate}")
    return [str(word) for word in (*words, "--antt-project", folder() / "rattle/logic/antt-project.json", "--logic-built", folder() / "logic_built")]
