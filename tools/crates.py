"""The crates of a repository."""
from pathlib import Path

# The folders of a crate whose texts are proved.
PARTS = ("src", "specs", "proofs")


class Crates:
    """The crates of a repository, and the libraries that each stands on, the kit's too."""

    def __init__(self, root):
        self.root = Path(root)
        self.libraries = {}
        for line in (self.root / "crates.txt").read_text("utf-8").splitlines():
            name, colon, libraries = line.partition("#")[0].partition(":")
            if colon:
                self.libraries[name.split()[0]] = libraries.split()

    def folder(self, name):
        return self.root / "crates" / name

    def is_program(self, name):
        return (self.folder(name) / "src/main.rt").is_file()

    def below(self, name):
        """The repository's own libraries below a crate, lowest first."""
        found = []
        for library in self.libraries[name]:
            if library in self.libraries:
                found += [it for it in [*self.below(library), library] if it not in found]
        return found

    def with_below(self, names):
        """These crates and all below them, lowest first."""
        return list(dict.fromkeys(it for name in names for it in [*self.below(name), name]))

    def texts(self, name):
        """The files of a crate that are proved."""
        return sorted(it for part in PARTS for it in (self.folder(name) / part).rglob("*") if it.is_file())

    def size(self, name):
        """How many bytes of text a crate has."""
        return sum(it.stat().st_size for it in self.texts(name))
