"""Programs at a terminal: a prompt before each line, faults that end nothing, help. Elsewhere there is none of it."""
import os
import pty
import termios

from tests.harness import Case, Ended, free_port, popen, end_group, program, ran

PROMPT = "autoraid> "
END = "\x04"


class Terminal:
    """A program whose standard input is a terminal, and standard output too unless it is said otherwise."""

    def __init__(self, *words, **how):
        self.master, slave = pty.openpty()
        settings = termios.tcgetattr(slave)
        # (neither echo, nor CR before LF)
        settings[1] &= ~termios.OPOST
        settings[3] &= ~termios.ECHO
        termios.tcsetattr(slave, termios.TCSANOW, settings)
        self.process = popen(words, **{"stdin": slave, "stdout": slave, **how})
        os.close(slave)

    def types(self, text):
        os.write(self.master, text.encode())

    def read(self):
        try:
            return os.read(self.master, 65_536).decode()
        except OSError:
            return ""

    def said(self):
        """What comes until the next prompt, or the end."""
        text = ""
        while not text.endswith(PROMPT) and (part := self.read()):
            text += part
        return text

    def ended(self):
        """Its status, the rest of what it printed, and its standard error."""
        out = ""
        while part := self.read():
            out += part
        error = self.process.stderr.read()
        return Ended(self.process.wait(60), out, error)

    def close(self):
        end_group(self.process.pid)
        self.process.wait()
        for pipe in self.process.stdout, self.process.stderr:
            if pipe:
                pipe.close()
        os.close(self.master)


class Prompts(Case):
    def at_terminal(self, *words, **how):
        return self.kept(Terminal(*words, **how))

    def asks(self, terminal, line, answer):
        terminal.types(f"{line}\n")
        self.wants(terminal.said(), answer + PROMPT, line)

    def test_script(self):
        """A faulty line is answered, and the next one is read; the end of the input ends the program well."""
        terminal = self.at_terminal(program("autoraid"), "run")
        self.wants(terminal.said(), PROMPT, "what is shown first")
        self.asks(terminal, "make 0 0 4", "ok\n")
        wanted = "a number from 0 to 65535: read H L LBA COUNT\n"
        self.asks(terminal, "read 0 0 0 x", f"bad argument: column 12: 'x' is no COUNT, {wanted}")
        self.asks(terminal, "# a comment", "")
        self.asks(terminal, "read 0 0 0 2", "good 1024x00\n")
        terminal.types("bogus\n")
        self.holds(terminal.said().startswith("unknown word: column 1: 'bogus' is none of make "), "a fault", "another")
        terminal.types(END)
        self.wants(terminal.ended(), Ended(0, "\n", ""), "the end")

    def test_help(self):
        """Each word of a script is there, with its arguments."""
        terminal = self.at_terminal(program("autoraid"), "run")
        terminal.said()
        terminal.types("help\n")
        rows = terminal.said().removesuffix(PROMPT).splitlines()
        words = [row.split()[0] for row in rows]
        self.wants(len(set(words)), 27, "the words")
        self.holds(any(row.startswith("write H L LBA COUNT BYTE [fua]  ") for row in rows), "write's form", rows)
        for word in words:
            terminal.types(f"{word}\n")
            self.holds("unknown word" not in terminal.said(), "a word of scripts", word)
        terminal.types(END)
        self.wants(terminal.ended().status, 0, "the status")

    def test_echo(self):
        terminal = self.at_terminal(program("autoraid"), "run", "--echo")
        terminal.said()
        self.asks(terminal, "make 0 0 4", "make 0 0 4\nok\n")
        terminal.types(END)
        self.wants(terminal.ended(), Ended(0, "\n", ""), "the end")

    def test_host(self):
        server = self.serve("0:0:8")
        terminal = self.at_terminal(program("ar_client"), "--port", server.port, "--host", "0")
        self.wants(terminal.said(), PROMPT, "what is shown first")
        self.asks(terminal, "tur 0 0", "good\n")
        terminal.types(END)
        self.wants(terminal.ended(), Ended(0, "\n", ""), "the end")
        self.stops(server)

    def test_operator(self):
        """An answer is shown at once, also that to a word that is none."""
        server = self.serve("0:0:8")
        terminal = self.at_terminal(program("ar_client"), "--operator", server.operator_port)
        self.wants(terminal.said(), PROMPT, "what is shown first")
        self.asks(terminal, "health", "whole\n")
        self.asks(terminal, "bogus", "fault: unknown word\n")
        self.asks(terminal, "room", "room 14\n")
        terminal.types(END)
        self.wants(terminal.ended(), Ended(1, "\n", "faulty line\n"), "the end after a faulty line")
        terminal = self.at_terminal(program("ar_client"), "--operator", server.operator_port)
        terminal.said()
        terminal.types("stop\n")
        self.wants(terminal.ended(), Ended(0, "stopped\n", ""), "a stop")
        self.ends(server)

    def test_no_terminal(self):
        """With either stream elsewhere there is neither prompt nor help."""
        terminal = self.at_terminal(program("autoraid"), "run", stdout=-1)
        terminal.types(f"room\nhelp\n{END}")
        out, error = terminal.process.communicate(timeout=60)
        self.wants(out, "room 18\n", "the output to a pipe")
        self.holds(error.startswith("line 2: unknown word\n"), "a fault", error)
        terminal = self.at_terminal(program("autoraid"), "run", stdin=-1)
        with terminal.process.stdin as lines:
            lines.write("room\nhelp\n")
        self.wants((terminal.said(), terminal.process.wait(60)), ("room 18\n", 1), "the input from a pipe")
        said = ran(program("ar_client"), "--port", free_port(), "--host", "0", text="tur 0 0\n")
        self.wants(said.out, "", "a client without a terminal")
