"""The repository: where its files are, and rt run in it. The other parts work on texts; what they need from the disk or
from the toolchain goes through here, so that every path and every call of rt has one place.
"""
import shutil
import subprocess
from pathlib import Path


class Stop(Exception):
    """Something that the caller has to mend; the command prints it and ends."""


class Tree:
    """A repository with a crates.txt at its top."""

    def __init__(self, top):
        self.top = Path(top).resolve()
        if not (self.top / "crates.txt").is_file():
            raise Stop(f"{self.top} is not the top of the repository: it has no crates.txt")

    # ---- files

    def crates(self):
        """The names of all crates, as crates.txt has them."""
        lines = (line.partition("#")[0] for line in self.read(self.top / "crates.txt").splitlines())
        return [line.partition(":")[0].split()[0] for line in lines if ":" in line]

    def crate(self, name):
        """A crate's folder."""
        if name not in self.crates():
            raise Stop(f"crates.txt lists no crate {name}; it lists {' '.join(self.crates())}")
        return self.top / "crates" / name

    def kept(self, name):
        """A file of the loop's own; target/ is never committed."""
        return self.top / "target" / "proof" / name

    def incremental(self, crate):
        """Where `rt check` keeps what it has checked of a crate."""
        return self.crate(crate) / "out" / "incremental"

    def clear(self, crate):
        """Has the next `rt check` of a crate that was just checked check it from nothing."""
        folder = self.incremental(crate)
        shutil.rmtree(folder, ignore_errors=True)
        folder.mkdir(parents=True)

    def short(self, path):
        return str(Path(path).relative_to(self.top))

    def read(self, path):
        try:
            return Path(path).read_text(encoding="utf-8")
        except FileNotFoundError:
            raise Stop(f"there is no {self.short(path)}") from None

    def write(self, path, text):
        path.parent.mkdir(parents=True, exist_ok=True)
        path.write_text(text, encoding="utf-8")

    # ---- rt

    def check(self, crate, *flags):
        """What `rt check` of a crate prints, with paths from the crate's folder or the repository's top; and its exit status."""
        try:
            done = subprocess.run(["rt", "check", *flags], cwd=self.crate(crate), text=True, encoding="utf-8",
                                  errors="replace", stdout=subprocess.PIPE, stderr=subprocess.STDOUT)
        except FileNotFoundError:
            raise Stop("rt, the Rattle toolchain, is not on PATH") from None
        return done.stdout.replace(f"{self.top}/", ""), done.returncode

    def dev(self, crate):
        """Checks a crate past its holes, and keeps what rt printed."""
        text, status = self.check(crate, "--allow-holes")
        self.write(self.kept(crate + ".out"), text)
        return text, status

    def last(self, crate):
        """What rt printed when the crate was last checked by dev, short or errors."""
        self.crate(crate)
        path = self.kept(crate + ".out")
        return self.read(path) if path.exists() else self.dev(crate)[0]
