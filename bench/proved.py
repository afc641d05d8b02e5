"""Small programs over crates of the repository, each in a folder of its own. One that is built is proved first."""
import os
import re
import shutil
import subprocess
import sys
import tempfile

TOP = os.path.dirname(os.path.dirname(os.path.abspath(__file__)))
sys.path.append(os.path.join(TOP, "tools"))

from crates import closure, dependencies


def lay_out(folder, name, crates, source, files=None):
    """The folder of a program with this source over these crates and those below them, and with further files by their paths in it."""
    stands_on = dependencies()
    crates = closure(crates, stands_on)
    program = os.path.join(folder, "crates", name)
    os.makedirs(os.path.join(program, "src"))
    for crate in crates:
        shutil.copytree(os.path.join(TOP, "crates", crate), os.path.join(folder, "crates", crate), ignore=shutil.ignore_patterns("out"))
    with open(os.path.join(folder, "crates.txt"), "w") as file:
        for crate in crates:
            file.write("%s: %s\n" % (crate, " ".join(stands_on[crate])))
        file.write("%s: %s\n" % (name, " ".join(crates)))
    shutil.copy(os.path.join(TOP, "HANDLES"), folder)
    for path, text in {"src/main.rt": source, "stdin": "", **(files or {})}.items():
        os.makedirs(os.path.dirname(os.path.join(program, path)), exist_ok=True)
        with open(os.path.join(program, path), "w") as file:
            file.write(text)
    return program


def build(folder, name, crates, source, proof=None, files=None):
    """The path of such a program, with this proof of its `main`."""
    proofs = {} if proof is None else {"proofs/main/Answers.antt": proof}
    program = lay_out(folder, name, crates, source, {**proofs, **(files or {})})
    subprocess.run(["rt", "run"], cwd=program, check=True, stdout=subprocess.DEVNULL)
    return os.path.join(program, "out", name)


def instructions(program, text):
    """The millions of instructions that the program takes to read the text and answer, as callgrind counts them."""
    with tempfile.TemporaryDirectory() as folder:
        command = ["valgrind", "--tool=callgrind", "--callgrind-out-file=" + os.path.join(folder, "calls"), program]
        reply = subprocess.run(command, input=text, capture_output=True, text=True)
    return int(re.search(r"Collected : (\d+)", reply.stderr).group(1)) / 1e6
