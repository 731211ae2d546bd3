"""The kit: the prover, the linker, what runs tests, and the kit's libraries."""
import os
import subprocess
from pathlib import Path

RT = os.environ.get("RT", "rt")


class Kit:
    """The kit that `rt` is of."""

    def __init__(self):
        self.folder = Path(subprocess.run([RT, "doc"], capture_output=True, text=True, check=True).stdout.strip()).parent
        self.toolchain = self.folder / "toolchain"

    def version(self):
        return subprocess.run([RT, "version"], capture_output=True, text=True, check=True).stdout.strip()

    def proof(self, verb, crates, name, folder_of):
        """The command that checks or builds a crate: `folder_of` tells the folder of each library of the repository below it."""
        root = "src/main.rt" if crates.is_program(name) else "src/lib.rt"
        own = {it: folder_of(it) for it in crates.below(name)}
        rlibs = self.folder / "rlibs"
        words = [self.folder / "bin/rattle", verb, "--crate-name", name, root, "--links", f"{name}="]
        words += ["--antt-project", self.folder / "rattle/logic/antt-project.json", "--logic-built", self.folder / "logic_built"]
        for folder in dict.fromkeys([rlibs, *own.values()]):
            words += ["-L", f"dependency={folder}"]
        for library in ["std", *crates.libraries[name]]:
            words += ["--extern", f"{library}={own.get(library, rlibs) / library}.rlib"]
        return [str(it) for it in words]

    def compiling(self, made):
        """The words that follow a proof which also compiles a program, or the tests of a crate, to an object file."""
        return ["--toolchain", str(self.toolchain), "--backend", "llvm", "-o", str(made)]

    def linking(self, made, program):
        """The command that links a program."""
        words = ["--target", "x86_64-unknown-linux-gnu", "--toolchain", self.toolchain, "-o", program, made]
        return [str(it) for it in [self.folder / "bin/rattle-link", *words, self.folder / "c/libos_c.a", self.folder / "c/liblibc_c.a"]]

    def testing(self, program):
        """The command that runs the tests of a crate."""
        return [str(self.folder / "bin/rattle-test"), str(program)]

    def called(self, program):
        """What a program calls of the C library."""
        listing = ["llvm-nm", "-D", "--undefined-only", "-j", str(program)]
        said = subprocess.run(listing, executable=self.toolchain / "bin/clang", capture_output=True, text=True, check=True).stdout
        return {it.partition("@")[0] for it in said.split()}

    def strip(self, program):
        """Takes out of a program what it doesn't need to run: the names and places of its functions."""
        subprocess.run(["llvm-strip", "--strip-all", str(program)], executable=self.toolchain / "bin/clang", check=True)
