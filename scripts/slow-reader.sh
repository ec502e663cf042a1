#!/usr/bin/env bash
# Tries the command I on what hands a file over slowly, which no stored session can: a FIFO that is written a few bytes at a time, and a
# terminal, which hands over a line at a time. What is printed is held to docs/MANUAL.md, and so is when: advice has to be there before
# the rest of the file is written, and not before its line's LF.
#
#   scripts/slow-reader.sh [PROGRAM]      default: target/bin/lnk100, which `scripts/build.sh lnk100` writes
#
# Needs python3, for its pseudo-terminals. Where something is missing after 20 seconds the script says so and ends with status 1.
set -eu
cd "$(dirname "$0")/.."
program=${1:-target/bin/lnk100}
[ -x "$program" ] || { echo "slow-reader: no program $program; scripts/build.sh lnk100 makes it"; exit 2; }
exec python3 - "$program" <<'PY'
import fcntl, os, pty, select, signal, subprocess, sys, tempfile, termios, time

PATIENCE = 20  # seconds until something that has to come is called missing
PAUSE = 0.3    # seconds for which nothing may come
FAULT = "NUMBER 000022 LINE 000004 COLUMN 000005\n"


class Session:
    """The program, with its standard input and output in our hands: pipes, or a terminal of its own, of which we have the other end."""

    def __init__(self, what, at=None):
        self.what = what
        if at:
            ours, theirs, _ = at
            self.run = subprocess.Popen([sys.argv[1]], stdin=theirs, stdout=theirs, start_new_session=True, preexec_fn=own_terminal)
            self.keys = self.said = ours
        else:
            self.run = subprocess.Popen([sys.argv[1]], stdin=subprocess.PIPE, stdout=subprocess.PIPE)
            self.keys, self.said = self.run.stdin.fileno(), self.run.stdout.fileno()
        self.expect("LNK100 REL. 1.00\n*\n")

    def stop(self, why):
        self.run.kill()
        sys.exit(f"slow-reader: {self.what}: {why}")

    def type(self, *lines):
        os.write(self.keys, "".join(line + "\n" for line in lines).encode())

    def expect(self, text):
        """The next thing that it says is this text."""
        said, until = b"", time.time() + PATIENCE
        while len(said) < len(text):
            ready, _, _ = select.select([self.said], [], [], max(0, until - time.time()))
            more = os.read(self.said, len(text) - len(said)) if ready else b""
            if not more:
                self.stop(f"wanted {text!r}, got {said.decode()!r}")
            said += more
        if said.decode() != text:
            self.stop(f"wanted {text!r}, got {said.decode()!r}")

    def quiet(self):
        """For a while it says nothing."""
        ready, _, _ = select.select([self.said], [], [], PAUSE)
        if ready:
            self.stop(f"said too early {os.read(self.said, 4096).decode()!r}")

    def end(self):
        self.type("X")
        self.expect("END LNK100\n")
        if self.run.wait() != 0:
            self.stop(f"ended with {self.run.returncode}")
        print(f"slow-reader: {self.what}: as it must be")


def own_terminal():
    """In the program, before it starts: its standard input becomes the terminal /dev/tty."""
    fcntl.ioctl(0, termios.TIOCSCTTY, 0)


def slowly(fd, text, step=1, pause=0.002):
    """A few bytes at a time, so that reads are short."""
    data = text.encode()
    for at in range(0, len(data), step):
        os.write(fd, data[at:at + step])
        time.sleep(pause)


def on_fifo(session, path):
    """The command I on a FIFO; then its other end can be opened."""
    signal.signal(signal.SIGALRM, lambda *_: session.stop("the FIFO was not opened"))
    signal.alarm(PATIENCE)
    session.type("I", path)
    fd = os.open(path, os.O_WRONLY)
    signal.alarm(0)
    return fd


def advised(session, fd, rest):
    """A line with a fault, whose LF waits; then the rest of the file, which has a second one."""
    slowly(fd, "3 ***TITLE\nA\n0 2 0 ***CODE\n")
    slowly(fd, "1 2 8 4")
    session.quiet()
    os.write(fd, b"\n")
    session.expect("ADVICE " + FAULT)
    slowly(fd, rest)
    session.quiet()


def fifo_fault(path):
    s = Session("a FIFO with a fault")
    fd = on_fifo(s, path)
    advised(s, fd, "1 2 9 4\n1 ***END\nA\n")
    os.close(fd)
    s.expect("F " + FAULT + "*\n")
    s.end()


def fifo_good(path):
    s = Session("a FIFO, byte by byte and in 7s")
    for name, step, answer in ("MAIN.OBJ", 1, ""), ("LIB.OBJ", 7, "LOAD COMPLETE\n"):
        fd = on_fifo(s, path)
        with open("examples/objects/" + name) as file:
            slowly(fd, file.read(), step)
        s.quiet()
        os.close(fd)
        s.expect(answer + "*\n")
    s.type("S", "TTY")
    s.expect("HIGH=000004\n\nSYMBOL TABLE\n\nSYMBOL VALUE\nMAIN   000000\nSQ     000003\nLOW    000004\n*\n")
    s.end()


def fifo_long(path):
    s = Session("a FIFO that brings too much")
    fd = on_fifo(s, path)
    advised(s, fd, "")
    slowly(fd, (" " * 80 + "\n") * 900, 3000)
    s.quiet()
    os.close(fd)
    s.expect("F TOO LONG 000005 LINE 000000\n*\n")
    s.end()


def terminal():
    """A pseudo-terminal that neither echoes nor makes CR LF of LF: our end, the program's, and the name of the latter."""
    ours, theirs = pty.openpty()
    mode = termios.tcgetattr(theirs)
    mode[1] &= ~termios.OPOST
    mode[3] &= ~termios.ECHO
    termios.tcsetattr(theirs, termios.TCSANOW, mode)
    return ours, theirs, os.ttyname(theirs)


def typed_fault(s, ours, name):
    s.type("I", name)
    os.write(ours, b"3 ***TITLE\nA\n0 2 0 ***CODE\n1 2 8")
    os.write(ours, b"\x04")  # in a line: the terminal hands over what there is
    s.quiet()
    os.write(ours, b" 4\n")
    s.expect("ADVICE " + FAULT)
    slowly(ours, "1 2 9 4\n1 ***END\nA\n")
    s.quiet()
    os.write(ours, b"\x04")  # on an empty line: the end
    s.expect("F " + FAULT + "*\n")
    s.end()


def terminal_of_a_reader():
    ours, theirs, name = terminal()
    s = Session("a terminal with a fault")
    typed_fault(s, ours, name)


def terminal_of_the_session():
    at = terminal()
    s = Session("the session's own terminal, /dev/tty, with a fault", at)
    typed_fault(s, at[0], "/dev/tty")


def terminal_cut():
    s = Session("a terminal that is cut off")
    ours, theirs, name = terminal()
    s.type("I", name)
    slowly(ours, "3 ***TITLE\nA\n1 ***END\nA\n")
    os.close(theirs)
    s.quiet()
    os.close(ours)
    s.expect("FILE NOT FOUND!!!\n*\n")
    s.type("I", "examples/objects/MAIN.OBJ")
    s.expect("*\n")
    s.end()


with tempfile.TemporaryDirectory() as folder:
    path = folder + "/reader"
    os.mkfifo(path)
    fifo_fault(path)
    fifo_good(path)
    fifo_long(path)
    terminal_of_a_reader()
    terminal_of_the_session()
    terminal_cut()
PY
