"""Programs that are timed: each is built over the crates as they are, in a copy of the repository, so that the gate need not prove it.
The copy takes along what the crates' checks keep in out/."""
import os, shutil, subprocess, sys

ROOT = os.path.dirname(os.path.dirname(os.path.abspath(__file__)))
sys.path.insert(0, os.path.join(ROOT, "gate"))
import rooms


def build(folder, source, used, words, changed=()):
    """The program of a file NAME.txt, which uses these crates and libraries of the kit. It is run once with these words. What
    proofs.txt beside it has are its proofs; `changed` are pairs of a file of the copy and its text."""
    listed = rooms.listed()
    crates = rooms.below(listed, [name for name in used if name in listed])
    name = os.path.basename(source)[: -len(".txt")]
    os.makedirs(os.path.join(folder, "crates"))
    shutil.copy(os.path.join(ROOT, "HANDLES"), folder)
    lines = rooms.lines()
    write(os.path.join(folder, "crates.txt"), "".join(lines[crate] for crate in crates) + f"{name}: {' '.join(used)}\n")
    for crate in crates:
        shutil.copytree(os.path.join(ROOT, "crates", crate), os.path.join(folder, "crates", crate), symlinks=True)
    for path, text in changed:
        write(os.path.join(folder, path), text)
    own = os.path.join(folder, "crates", name)
    write(os.path.join(own, "specs", "Lib.antt"), "")
    with open(source) as file:
        write(os.path.join(own, "src", "main.rt"), file.read())
    place_proofs(os.path.join(os.path.dirname(source), "proofs.txt"), os.path.join(own, "proofs"))
    subprocess.run(["git", "init", "-q", folder], check=True)
    done = subprocess.run(["rt", "run", "--", *words], cwd=own, stdout=subprocess.PIPE, stderr=subprocess.STDOUT, text=True)
    program = os.path.join(own, "out", name)
    if not os.path.exists(program):
        sys.exit(f"{name} was not built:\n{done.stdout[-4000:]}")
    return program


def place_proofs(source, folder):
    """Each part of a file of proofs goes to the file that its first line names."""
    if os.path.exists(source):
        with open(source) as file:
            for part in file.read().split("== ")[1:]:
                name, text = part.split("\n", 1)
                write(os.path.join(folder, name.strip()), text)


def write(path, text):
    os.makedirs(os.path.dirname(path), exist_ok=True)
    with open(path, "w") as file:
        file.write(text)


def check(crate):
    """Has a crate's check keep its work, so that copies take it along."""
    subprocess.run(["rt", "check"], cwd=os.path.join(ROOT, "crates", crate), check=True, stdout=subprocess.DEVNULL)


def counter(folder):
    """The library that counts requests for memory, or None where there is no C compiler."""
    library = os.path.join(folder, "fail_nth.so")
    words = ["cc", "-shared", "-fPIC", "-O1", "-o", library, os.path.join(ROOT, "tests", "fail_nth.c")]
    try:
        subprocess.run(words, check=True)
    except (OSError, subprocess.CalledProcessError):
        print("no C compiler: requests for memory are not counted")
        return None
    return library
