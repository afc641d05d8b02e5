"""A trial of the package for Debian: it is installed below a fresh root folder, used, and removed again."""

from __future__ import annotations

import gzip
import os
import subprocess
from collections.abc import Sequence
from pathlib import Path

from blocks import Block
from releasing.commands import TOP, Refusal, written_by
from releasing.program import PACKAGES
from releasing.steps import try_steps
from releasing.trees import digest, files_below

COMMANDS = ("cls", "clsynth", "clsynth-check")


def try_debian(deb: Path, program: Path, room: Path) -> str:
    """Tries a package that has this program, and says what was tried."""
    root = room / "root"
    _make_root(root)
    _dpkg(root, "--install", str(deb))
    _dpkg(root, "--verify", "clsynth")
    installed = root / "usr/bin/clsynth"
    if digest(installed) != digest(program):
        raise Refusal("the program of the package isn't that of the release")
    count = try_steps(lambda block, step: _words(block, installed), room, {})
    rows = written_by([TOP / "tools/check-rows", installed]).splitlines()[-1]
    _try_manual(root / "usr/share/man/man1/clsynth.1.gz", room)
    _try_completions(root / "usr/share")
    _dpkg(root, "--purge", "clsynth")
    if left := [str(path) for path in files_below(root / "usr")]:
        raise Refusal(f"these files of the package are left when it is removed: {' '.join(left)}")
    return f"installed below a fresh root, {count} steps of the tutorial, {rows}, manual page, completions, removed"


def _make_root(root: Path) -> None:
    """Makes a root folder where the packages of the C library count as installed, as they are in this system."""
    for folder in ("info", "updates"):
        (root / "var/lib/dpkg" / folder).mkdir(parents=True)
    (root / "var/log").mkdir()
    (root / "usr").mkdir()
    told = written_by(["dpkg-query", "--status", *sorted(set(PACKAGES.values()))])
    (root / "var/lib/dpkg/status").write_text(told)


def _dpkg(root: Path, *words: str) -> None:
    # A system may be set up to leave documents out.
    always = [f"--root={root}", "--force-not-root", f"--log={root}/var/log/dpkg.log", "--path-include=/usr/share/*"]
    path = {"PATH": f"{os.environ['PATH']}:/usr/local/sbin:/usr/sbin:/sbin"}
    told = written_by(["dpkg", *always, *words], environment=path)
    if words[0] == "--verify" and told:
        raise Refusal(f"what is installed isn't what the package has: {told}")


def _words(block: Block, installed: Path) -> Sequence[str | Path] | None:
    return [installed] if block.kind == "cls" else None


def _try_manual(packed: Path, room: Path) -> None:
    text = gzip.decompress(packed.read_bytes())
    if text != (TOP / "docs/clsynth.1").read_bytes():
        raise Refusal("the manual page of the package isn't docs/clsynth.1")
    page = room / "clsynth.1"
    page.write_bytes(text)
    written_by(["groff", "-man", "-ww", "-z", page])


def _try_completions(share: Path) -> None:
    """bash looks for a file with the name of the command, and zsh for one that names the commands in its first line."""
    for command in COMMANDS:
        file = share / "bash-completion/completions" / command
        ran = subprocess.run(["bash", "--norc", "-c", 'source "$0" && complete -p "$1"', file, command], capture_output=True, text=True)
        if ran.returncode or ran.stderr:
            raise Refusal(f"bash has no completion of {command}: {ran.stderr}")
    first = (share / "zsh/vendor-completions/_cls").read_text().splitlines()[0]
    if first.split() != ["#compdef", "cls", "clsynth-check", "clsynth"]:
        raise Refusal(f"zsh has no completion: {first}")
