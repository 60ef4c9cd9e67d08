"""A Rattle workspace outside the repository, in which a bench proves, builds and runs a crate of its own over the repository's.

The folder is kept, and a later run takes it up again, so only what changed is proved anew. It needs the command rt, and rustc
where a Rust program is linked with a library.
"""
import os, pathlib, shutil, subprocess, sys, tempfile

TOP = pathlib.Path(__file__).resolve().parent.parent


def say(text):
    """Says on standard error how far a bench is, under its own name."""
    print(f"{pathlib.Path(sys.argv[0]).stem}: {text}", file=sys.stderr, flush=True)


def run(words, folder):
    """Runs a command, and stops with what it wrote if it fails."""
    done = subprocess.run(words, cwd=folder, stdout=subprocess.PIPE, stderr=subprocess.STDOUT, text=True)
    if done.returncode:
        sys.exit(f"{done.stdout[-4000:]}\n{words[0]} failed in {folder}")


def usual_folder(name):
    """Where the workspace of a bench is if no other folder is named."""
    return pathlib.Path(tempfile.gettempdir()) / f"lanes-{name}-{os.getuid()}"


def libraries_below(*names):
    """The crates of those names and all that they use, lowest first, each with its libraries as crates.txt has them."""
    lines = [line.partition(":") for line in (TOP / "crates.txt").read_text().splitlines() if not line.startswith("#")]
    below = {name: libraries.split() for name, _, libraries in lines}
    wanted = set()
    for name in reversed(list(below)):
        if name in names or name in wanted:
            wanted |= {name, *below[name]}
    return {name: libraries for name, libraries in below.items() if name in wanted}


def copy_crate(name, folder):
    """Copies a crate's sources, and its kept proof work if the folder has none of its own."""
    source, crate = TOP / "crates" / name, folder / "crates" / name
    for part in ("src", "specs", "proofs"):
        shutil.rmtree(crate / part, ignore_errors=True)
        if (source / part).is_dir():
            shutil.copytree(source / part, crate / part)
    if (source / "out").is_dir() and not (crate / "out").exists():
        try:
            shutil.copytree(source / "out", crate / "out")
        except (OSError, shutil.Error):
            # A check is at work there, so this crate is proved anew.
            shutil.rmtree(crate / "out", ignore_errors=True)


def write_workspace(folder, libraries, name, sources, row):
    """Writes a workspace of the libraries, each with those that it uses, and of the bench's own crate over them.

    The crate's files get their ending .rt here, since the gate stops at a .rt file that belongs to none of the repository's
    crates; `row` is its line in crates.txt, after the name."""
    folder.mkdir(parents=True, exist_ok=True)
    for library in libraries:
        copy_crate(library, folder)
    source = folder / "crates" / name / "src"
    shutil.rmtree(source, ignore_errors=True)
    source.mkdir(parents=True)
    for file in sources.glob("*.rattle"):
        shutil.copy(file, source / f"{file.stem}.rt")
    rows = [f"{library}: {' '.join(below)}\n" for library, below in libraries.items()]
    (folder / "crates.txt").write_text("".join([*rows, f"{name}{row}\n"]))


def link(folder, name, timing, cpu=None):
    """Proves and builds the static library, links it with the Rust program `timing/main.rs`, and gives the program's path."""
    crate = folder / "crates" / name
    say(f"proving and building the library for {cpu or 'the default processor'}")
    run(["rt", "lib", *(["--cpu", cpu] if cpu else [])], crate)
    kit = pathlib.Path(shutil.which("rt")).resolve().parent.parent
    program = folder / f"times-{cpu or 'default'}"
    links = [f"-Clink-arg={crate / 'out' / f'lib{name}.a'}", f"-Clink-arg={kit / 'c' / 'liblibc_c.a'}"]
    target = [f"-Ctarget-cpu={cpu}"] if cpu else []
    run(["rustc", "--edition=2024", "-Copt-level=3", *target, *links, "-o", str(program), "main.rs"], timing)
    return program


def has_wider():
    """Whether this machine runs programs for x86-64-v3."""
    flags = pathlib.Path("/proc/cpuinfo")
    return flags.exists() and "avx2" in flags.read_text().split()
