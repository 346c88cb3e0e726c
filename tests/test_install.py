"""What `./install` puts where, and that it runs without sources; the manual pages, completions and the systemd unit;
the Debian package."""
import os
import re
import shutil
import tempfile
import unittest

from tests.harness import ROOT, Case, ran, text_of

FILES = """
bin/ar_client bin/autoraid lib/systemd/system/autoraid.service libexec/autoraid/ar_client libexec/autoraid/autoraid
libexec/autoraid/start share/bash-completion/completions/ar_client share/bash-completion/completions/autoraid
share/man/man1/ar_client.1 share/man/man1/autoraid.1 share/man/man8/autoraid-serve.8 share/zsh/site-functions/_autoraid
""".split()
PAGES = "man1/autoraid.1", "man1/ar_client.1", "man8/autoraid-serve.8"
# What a package is made of, beside the programs: the files and folders of the repository.
SOURCES = "install", "packaging", "crates/ar_cli/src/version.rt", "LICENSE-MIT", "LICENSE-APACHE"


class Install(Case):
    def setUp(self):
        super().setUp()
        folder = tempfile.TemporaryDirectory()
        self.addCleanup(folder.cleanup)
        self.prefix = folder.name
        self.wants(ran(os.path.join(ROOT, "install"), self.prefix).status, 0, "./install PREFIX")

    def path(self, name):
        return os.path.join(self.prefix, name)

    def text(self, name):
        with open(self.path(name), encoding="utf-8") as text:
            return text.read()

    def test_files(self):
        paths = [os.path.join(at, name) for at, _, names in os.walk(self.prefix) for name in names]
        self.wants(sorted(os.path.relpath(path, self.prefix) for path in paths), FILES, "what is installed")

    def test_runs_without_sources(self):
        """An installed program neither builds nor needs more than a shell."""
        ended = ran(self.path("bin/autoraid"), "run", text="make 0 0 1\ntur 0 0\n", env={"PATH": "/usr/bin:/bin"})
        self.wants(tuple(ended), (0, "ok\ngood\n", ""), "an installed program")

    def test_manual_pages(self):
        for page in PAGES:
            words = "man", "--warnings=all", "--local-file", self.path(f"share/man/{page}")
            ended = ran(*words, env={**os.environ, "MANPAGER": "cat"})
            self.wants((ended.status, ended.error), (0, ""), page)
            self.holds("EXAMPLES" in ended.out, f"{page} has examples", ended.out)

    def test_completions(self):
        """Each option that a page describes is completed, and no other."""
        pages = "".join(self.text(f"share/man/{page}") for page in PAGES)
        options = {"--" + name for name in re.findall(r"^\.It Fl -(\w[\w-]*)", pages, re.MULTILINE)}
        words = "share/bash-completion/completions/autoraid"
        for name in words, "share/zsh/site-functions/_autoraid":
            self.wants(set(re.findall(r"--[a-z-]+", self.text(name))) - {"--host", "--"}, options, name)
        self.wants(ran("bash", "-n", self.path(words)).status, 0, "the words for bash")

    def test_unit(self):
        """The exposure that systemd computes for the unit."""
        unit = self.path("lib/systemd/system/autoraid.service")
        said = ran("systemd-analyze", "security", "--offline=true", unit).out
        exposure = re.search(r"Overall exposure level for autoraid.service: ([\d.]+)", said)
        self.holds(exposure and float(exposure[1]) < 3, "the unit's exposure is below 3", said[-200:])

    def test_start_of_the_unit(self):
        """After the start the unit waits for the operators' socket, at which the program listens."""
        unit = self.text("lib/systemd/system/autoraid.service").replace("\\\n", " ")
        start, after = (re.search(rf"^ExecStart{what}=(.+)$", unit, re.MULTILINE)[1].split() for what in ("", "Post"))
        self.wants(after[0], self.path("bin/ar_client"), "the program after the start")
        self.wants(after[after.index("--operator") + 1], start[start.index("--operator") + 1], "the socket")
        door = self.path("operators")
        waits = self.starts(*[door if word.startswith("%t/") else word for word in after])
        server = self.serve("0:0:8", doors={"operator": door})
        self.wants(waits.ended(), (0, "", ""), "what runs after the start")
        self.stops(server)

    def test_wrong_prefix(self):
        ended = ran(os.path.join(ROOT, "install"), "somewhere")
        self.wants((ended.status, ended.out), (2, ""), "a path that isn't from the root")


@unittest.skipUnless(shutil.which("dpkg-deb"), "there is no dpkg-deb")
class Package(Case):
    """A package of a tree whose programs are scripts, as `packaging/deb` makes it."""

    def setUp(self):
        super().setUp()
        room = tempfile.TemporaryDirectory()
        self.addCleanup(room.cleanup)
        self.room, self.tree = room.name, os.path.join(room.name, "tree")
        for name in SOURCES:
            source, to = os.path.join(ROOT, name), os.path.join(self.tree, name)
            os.makedirs(os.path.dirname(to), exist_ok=True)
            (shutil.copytree if os.path.isdir(source) else shutil.copy)(source, to)
        for name in "autoraid", "ar_client", "crates/autoraid/out/autoraid", "crates/ar_client/out/ar_client":
            self.write_program(os.path.join(self.tree, name), os.path.basename(name))
        who = "-c", "user.name=A. Packager", "-c", "user.email=packager@array.example"
        self.git("init", "--quiet")
        self.git(*who, "commit", "--quiet", "--allow-empty", "--message", "first")

    def write_program(self, path, name):
        os.makedirs(os.path.dirname(path), exist_ok=True)
        with open(path, "w", encoding="utf-8") as file:
            file.write(f"#!/bin/sh\necho {name}\n")
        os.chmod(path, 0o755)

    def git(self, *words):
        self.wants(ran("git", "-C", self.tree, *words).status, 0, f"git {words}")

    def test_package(self):
        said = ran(os.path.join(self.tree, "packaging", "deb"), self.room)
        self.wants((said.status, said.error), (0, ""), "packaging/deb")
        version = re.search(r'VERSION.* = "(.*)"', text_of("crates", "ar_cli", "src", "version.rt"))[1]
        package = os.path.join(self.room, f"autoraid_{version}_amd64.deb")
        fields = ran("dpkg-deb", "--field", package, "Package", "Version", "Maintainer", "Depends").out.splitlines()
        wanted = ["Package: autoraid", f"Version: {version}", "Maintainer: A. Packager <packager@array.example>"]
        self.wants(fields, [*wanted, "Depends: libc6"], "the fields")
        rows = [row.split() for row in ran("dpkg-deb", "--contents", package).out.splitlines()]
        self.wants({row[1] for row in rows}, {"root/root"}, "the owners")
        files = sorted(row[5].removeprefix("./usr/") for row in rows if not row[5].endswith("/"))
        self.wants(files, sorted([*FILES, "share/doc/autoraid/copyright"]), "the files")
        modes = {row[0] for row in rows if row[0][0] == "d" or "/bin/" in row[5]}
        self.wants(modes, {"drwxr-xr-x", "-rwxr-xr-x"}, "the modes of folders and commands")
        self.unpacks(package)

    def unpacks(self, package):
        """The commands are those of /usr, and so is the unit's."""
        to = os.path.join(self.room, "unpacked")
        self.wants(ran("dpkg-deb", "--extract", package, to).status, 0, "dpkg-deb --extract")
        for path in "bin/autoraid", "lib/systemd/system/autoraid.service":
            with open(os.path.join(to, "usr", path), encoding="utf-8") as file:
                text = file.read()
            self.holds("/usr/" in text and self.room not in text and "@PREFIX@" not in text, "its own commands", text)
