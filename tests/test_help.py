"""Help, versions, and command lines that are refused: what each says to someone who has nothing but the programs.

What an option is, its bounds and what holds without it are written here by hand, and not taken from the programs.
"""
import re
import tempfile

from tests.harness import Case, Ended, free_port, program, ran, text_of

COLUMNS = 100
# What `autoraid` can do: the most lines of the help, and the options with what the help has to say of each.
SHAPE = {"--geometry": "small paper default: small", "--disks": "4 12 default: 4", "--extents": "1024 default: 4"}
CACHE = {"--cache": "65536 32M default: 0"}
SUBCOMMANDS = {
    "run": (24, {"--picture": "SVG", "--echo": "line answer", **SHAPE, **CACHE}),
    "create": (24, {"--store": "FOLDER", "--mirror": "FOLDER", "--name": "64", **SHAPE}),
    "check": (24, {"--store": "FOLDER"}),
    "export": (24, {"--store": "FOLDER"}),
    "import": (24, {"--store": "FOLDER"}),
    "serve": (
        37,
        {
            "--port": "PORT",
            "--sessions": "64",
            "--operator": "PORT PATH",
            "--http": "PORT",
            "--http-host": "NAME localhost",
            "--iscsi": "PORT",
            "--name": "64",
            "--login-timeout": "SECONDS default: 10",
            "--idle-timeout": "SECONDS",
            "--iscsi-ping": "SECONDS 0: never default: 15",
            "--poll": "MICROSECONDS 1000 default: 0",
            "--audit": "full off",
            "--spares": "4 default: 0",
            "--log": "standard error",
            "--store": "FOLDER",
            "--mirror": "FOLDER",
            "--sync": "flush always default: flush",
            "--commit-every": "SECONDS 3600 default: 1",
            **SHAPE,
            **CACHE,
        },
    ),
}
SERVE = "serve --port 7117 --sessions 1"
STORED = f"{SERVE} --store folder"
# Command lines that are refused, and what the second line has to name: the wrong word, and what is wanted.
WRONG = {
    "autoraid": {
        "Run": "Run run serve",
        "--wrong": "--wrong",
        "help nonsense": "nonsense",
        "run more": "more",
        "run --disk 5": "--disk --disks",
        "run --disks": "--disks COUNT",
        "run --disks 3": "3 --disks 4 12",
        "run --disks 13": "13 --disks 4 12",
        "run --disks four": "four --disks",
        "run --disks 4 --disks 5": "--disks multiple",
        "run --geometry big": "big --geometry small paper",
        "run --extents 1025": "1025 --extents 1024",
        "run --cache 65537": "65537 --cache 65536",
        "run --cache 64X": "64X --cache 65536 32M",
        "run --geometry paper --cache 32K": "32K --cache whole",
        "run --geometry small --cache 65M": "65M --cache 65536",
        "run --port 7117": "--port",
        "serve": "--port --iscsi required",
        "serve --sessions 1": "--sessions --port",
        "serve --iscsi 3260": "--sessions --operator",
        "serve --iscsi 3260 --sessions 1": "--sessions --port",
        "serve --port 7117": "--sessions --operator",
        "serve --port 0 --sessions 1": "0 --port 65535",
        "serve --port 7117 --sessions 65": "65 --sessions 64",
        "serve --port 7117 --operator 0": "0 --operator PORT PATH 65535",
        f"serve --port 7117 --operator {101 * 'n'}": "--operator PATH 100",
        f"{SERVE} --login-timeout 86401": "86401 --login-timeout 86400",
        f"{SERVE} --iscsi-ping 86401": "86401 --iscsi-ping 0 86400",
        f"{SERVE} --poll 1001": "1001 --poll 0 1000",
        f"{SERVE} --audit none": "none --audit full off",
        f"{SERVE} --http-host array.example": "--http-host --http PORT",
        f"{SERVE} --name {65 * 'n'}": "--name 64",
        f"{SERVE} --name a\x07b": "--name control",
        f"{SERVE} --mirror folder": "--mirror --store FOLDER",
        f"{SERVE} --sync always": "--sync --store FOLDER",
        f"{SERVE} --commit-every 5": "--commit-every --store FOLDER",
        f"{STORED} --name other": "--name --store",
        f"{STORED} --sync never": "never --sync flush always",
        f"{STORED} --commit-every 0": "0 --commit-every 3600",
        f"{STORED} --commit-every 3601": "3601 --commit-every 3600",
        f"{STORED} --audit full": "--audit --store history",
        f"{STORED} --cache 1M": "1M --cache --store --geometry",
        "create": "--store FOLDER",
        "create --store folder --disks 3": "3 --disks 4 12",
        "create --store folder --cache 4": "--cache",
        f"create --store folder --name {65 * 'n'}": "--name 64",
        "create --store folder --name a\x7Fb": "--name control",
        "check": "--store FOLDER",
        "check folder": "folder --store",
        "export --store folder": "UNIT",
        "export 0:0": "--store FOLDER",
        "import --store folder 4:0": "4:0 HOST:LUN",
        "import --store folder 0:8": "0:8 HOST:LUN",
        "import --store folder 0:0 1:0": "1:0",
    },
    "ar_client": {
        "--port 0 --host 0": "0 --port 65535",
        "--port 7117 --host 4": "4 --host 3",
        "--port 7117": "--host --operator",
        "--host 0": "--host --port",
        "--operator": "--operator --port path",
        "--operator 65536": "65536 --operator 65535",
        "--port 7117 --operator 7118": "--operator --port",
        "--port 7117 --host 0 more": "more",
        "--port 7117 --host 0 --wait 3601": "3601 --wait 3600",
    },
}
# Words that name no unit.
NO_UNITS = "0:0", "0:0:4:4", "4:0:4", "0:256:4", "0:0:x", "0:0:4k", "0:0:M", "0:0:4294967296", "0:0:2048G"


def has(text, words):
    """Whether a text has all of these words, none as a part of another."""
    return all(re.search(rf"(?<![\w-]){re.escape(word)}(?![\w-])", text) for word in words)


class Help(Case):
    def shown(self, name, *words):
        """What a program prints that is asked for its help or its version."""
        said = ran(program(name), *words)
        self.wants((said.status, said.error), (0, ""), f"{name} {words}: the status, and standard error")
        return said.out

    def fits(self, text, lines):
        """A screen: at most `lines` lines of at most 100 columns."""
        self.holds(len(text.splitlines()) <= lines, f"at most {lines} lines", text)
        self.holds(max(map(len, text.splitlines())) <= COLUMNS, f"at most {COLUMNS} columns", text)

    def test_programs(self):
        """Without a word a program shows its help, as `help`, `--help` and `-h` do."""
        for name, words in ("autoraid", SUBCOMMANDS), ("ar_client", ("--port", "--host", "--operator", "--wait")):
            text = self.shown(name)
            self.wants(self.shown(name, "--help"), text, f"{name} --help")
            self.wants(self.shown(name, "-h"), text, f"{name} -h")
            self.wants(self.shown(name, "help"), text, f"{name} help")
            self.holds(has(text, words), f"{words} in the help", text)
            self.holds(re.search(rf"^Examples?:|^  .*{name} ", text, re.MULTILINE), "an example", text)
            self.fits(text, 24)

    def test_examples(self):
        """An example of a help works, on ports that are free."""
        for words in ("--help",), ("run", "--help"), ("serve", "--help"):
            lines = re.findall(r"^ +autoraid (run|serve)( .*)$", self.shown("autoraid", *words), re.MULTILINE)
            self.holds(lines, f"an example of {words}", lines)
            for subcommand, rest in lines:
                with self.subTest(subcommand + rest):
                    self.works(subcommand, rest)

    def works(self, subcommand, rest):
        if subcommand == "run":
            options, script = rest.split("<")
            with tempfile.TemporaryDirectory() as room:
                said = ran(program("autoraid"), "run", *options.split(), text=text_of(script.strip()), cwd=room)
            self.wants((said.status, said.error), (0, ""), rest)
            return
        words = [str(free_port()) if re.fullmatch(r"711\d", word) else word for word in rest.split()]
        running = self.starts(program("autoraid"), "serve", *words)
        self.wants(running.line(), f"listening {words[1]}\n", rest)

    def test_versions(self):
        version = re.search(r'VERSION.* = "(.*)"', text_of("crates", "ar_cli", "src", "version.rt"))[1]
        for name in "autoraid", "ar_client":
            for word in "--version", "-V":
                self.wants(self.shown(name, word), f"{name} {version}\n", f"{name} {word}")

    def test_subcommands(self):
        """Each has its options with their bounds and defaults, no others, and an example."""
        for name, (lines, options) in SUBCOMMANDS.items():
            with self.subTest(name):
                text = self.shown("autoraid", name, "--help")
                self.wants(self.shown("autoraid", name, "-h"), text, f"autoraid {name} -h")
                self.wants(self.shown("autoraid", "help", name), text, f"autoraid help {name}")
                self.fits(text, lines)
                self.options_are(text, options)
                self.holds(f"\n  autoraid {name} " in text[text.index("Example") :], "an example", text)

    def options_are(self, text, options):
        rows = dict(re.findall(r"^ {6}(--[a-z-]+) +(.*)$", text, re.MULTILINE))
        self.wants(set(rows), set(options), "the options")
        for option, said in options.items():
            for part in said.replace(" default:", "\ndefault:").split("\n"):
                words = [part] if part.startswith("default") else part.split()
                self.holds(has(rows[option], words), f"{words} beside {option}", rows[option])

    def test_default_of_the_audit(self):
        """It is not one value: the text below the options says what it depends on."""
        text = self.shown("autoraid", "serve", "--help")
        sentence = re.search(r"--audit is .*?\.", text, re.DOTALL)
        self.holds(sentence and has(sentence[0], ["full", "--sessions", "--iscsi", "--store", "off"]), "a rule", text)

    def test_standard_output_that_is_full(self):
        with open("/dev/full", "wb") as full:
            said = ran(program("autoraid"), "--help", stdout=full)
        self.wants((said.status, said.error), (1, "write fault\n"), "help to a full device")


class WrongWords(Case):
    """A wrong command line is refused by two lines: the second names the word, and what is wanted."""

    def refused(self, name, words, first):
        said = ran(program(name), *words)
        lines = said.error.splitlines()
        self.wants((said.status, said.out, lines[:1], len(lines)), (2, "", [first], 2), f"{name} {words}")
        return lines[1]

    def test_wrong_words(self):
        for name, rows in WRONG.items():
            for line, words in rows.items():
                with self.subTest(f"{name} {line}"):
                    said = self.refused(name, line.split(), "bad command line")
                    self.holds(has(said, words.split()), f"{words} in the second line", said)

    def test_words_that_are_no_units(self):
        for word in NO_UNITS:
            with self.subTest(word):
                said = self.refused("autoraid", [*SERVE.split(), word], f"bad unit {word}")
                self.holds("HOST:LUN:SIZE" in said, "the form of a unit", said)


class Sizes(Case):
    """K, M and G stand for 2^10, 2^20 and 2^30 bytes."""

    # Whether two blocks, written in turn, are each still in the cache alone (`-`).
    LINES = "make 0 0 {0}\nwrite 0 0 0 1 AA\nwrite 0 0 {1} 1 BB\nlevels 0 0\n"

    def levels(self, block, *options):
        """What has become of two blocks of `block` sectors in an array with these options."""
        said = ran(program("autoraid"), "run", *options, text=self.LINES.format(2 * block, block))
        self.wants((said.status, said.error), (0, ""), f"a script with {options}")
        return said.out.splitlines()[-1]

    def test_caches(self):
        """A cache of one block keeps the last, and one of two keeps both."""
        paper = ["--geometry", "paper"]
        self.wants(self.levels(2, "--cache", "1K"), "M-", "a block of 1 KiB in a cache of 1 KiB")
        self.wants(self.levels(2, "--cache", "2K"), "--", "two of 1 KiB in a cache of 2 KiB")
        self.wants(self.levels(128, *paper, "--cache", "64K"), "M-", "a block of 64 KiB in a cache of 64 KiB")
        self.wants(self.levels(128, *paper, "--cache", "1M"), "--", "two of 64 KiB in a cache of 1 MiB")

    def test_units(self):
        """READ CAPACITY reports the last sector, of 512 bytes."""
        server = self.serve("--extents", "1024", "0:0:4K", "0:1:1M", "0:2:12")
        said = server.client(0, "capacity 0 0\ncapacity 0 1\ncapacity 0 2\n")
        ends = "00 00 00 07", "00 00 07 FF", "00 00 00 0B"
        self.wants(said, Ended(0, "".join(f"good {end} 00 00 02 00\n" for end in ends), ""), "the capacities")
        self.stops(server)

    def test_a_unit_that_is_too_large(self):
        """A unit has at most 512 MiB: a size in G is read, and the array refuses it."""
        said = ran(program("autoraid"), *f"serve --port {free_port()} --sessions 1 0:0:1G".split())
        self.wants(said, Ended(1, "", "unit 0:0:1G refused M2 Size\n"), "a unit of 1 GiB")
