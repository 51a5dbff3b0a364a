"""What the runs of an editor share: its programs, its document, and what `rvas check` says of the text after each step."""
import fcntl
import os
import pty
import struct
import sys
import termios
import threading
import time

from lsp_reports import Wrong, difference, published_of, reports_of

TOP = os.path.dirname(os.path.dirname(os.path.abspath(__file__)))

# How long a step may take, in seconds.
PATIENCE = 120

TEXT = """\
        .equ n, 4
start:  li   a0, 5
loop:   addi a0, a0, n      # \u00e4 \U0001f600
        lw   a1, %lo(table)(a0)
1:      beqz a1, 1f
        bnez a0, loop
        bnez a0, lop
1:      addi a0, a0, 2048
        j    1b
        ebreak
        .data
table:  .word 1, 2, 3, n
        .ascii "\u00e4\U0001f600", n
table:  .byte 256
"""


def fail(words):
    print(f"tools/{os.path.basename(sys.argv[0])}: {words}")
    sys.exit(1)


def program(variable, name):
    """The path of a program that was built, or of the one that a variable names."""
    path = os.environ.get(variable, os.path.join(TOP, "crates", name, "out", name))
    if not os.access(path, os.X_OK):
        fail(f"build {name} first: rt ci, or rt run in crates/{name}")
    return os.path.abspath(path)


def write_document(folder):
    """The path of a file with the document."""
    path = os.path.join(folder, "a.s")
    with open(path, "w") as file:
        file.write(TEXT)
    return path


def wait_for(what, is_there):
    until = time.monotonic() + PATIENCE
    while not is_there():
        if time.monotonic() > until:
            fail(f"{what} does not come")
        time.sleep(0.05)


class Terminal:
    """A program in a terminal of its own."""

    def __init__(self, words, environment):
        self.process, self.terminal = pty.fork()
        if self.process == 0:
            os.execvpe(words[0], words, environment)
        fcntl.ioctl(self.terminal, termios.TIOCSWINSZ, struct.pack("HHHH", 40, 120, 0, 0))
        threading.Thread(target=self.read, daemon=True).start()

    def read(self):
        """What is shown has to be read, or the program waits."""
        try:
            while os.read(self.terminal, 65536):
                pass
        except OSError:
            pass

    def wait(self):
        os.waitpid(self.process, 0)


class Steps:
    """The steps of a run. `state` gives the text that the editor has, and the diagnostics that it holds, by columns of this encoding."""

    def __init__(self, state, encoding, rvas, folder):
        self.state, self.encoding, self.rvas, self.folder = state, encoding, rvas, folder
        self.count = 0

    def difference(self):
        """What differs between what the editor holds and what is right of its text, and the two."""
        state = self.state()
        found, hidden = reports_of([self.rvas], self.folder, [state["text"]], self.encoding)
        try:
            held = published_of({"diagnostics": list(state["found"])}, state["text"], self.encoding)
        except (Wrong, IndexError) as wrong:
            # Those of the text before may still be there.
            return wrong, state
        return difference(held, found[0], hidden[0]), state

    def done(self, what, wanted=None):
        """Waits until the diagnostics are right, and returns the text, which has to be the wanted one."""
        until = time.monotonic() + PATIENCE
        differs, state = self.difference()
        while differs:
            if time.monotonic() > until:
                fail(f"{what}: {differs}\n{state['text']!r}")
            time.sleep(0.05)
            differs, state = self.difference()
        text = state["text"]
        print(f"{what}: {text.count(chr(10))} lines, {len(state['found'])} diagnostics")
        if wanted not in (None, text):
            fail(f"{what}, the text is another one:\n{text!r}")
        self.count += 1
        return text
