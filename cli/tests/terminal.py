#!/usr/bin/env python3
"""The tool on a terminal of its own: colour, NO_COLOR and TERM, the line of progress and its wiping; and on pipes: plain ASCII.

    cli/tests/terminal.py PROGRAM

The last line is `N passed, 0 failed`."""
import os
import pty
import subprocess
import sys
import tempfile
import threading
import time

WRONG = b"a $a q $.\n"


def on_terminal(words, folder, settings):
    """What comes out of a run whose standard output and error are a terminal."""
    keeper, given = pty.openpty()
    environment = {key: value for key, value in os.environ.items() if key not in ("NO_COLOR", "TERM")}
    child = subprocess.Popen(words, cwd=folder, stdin=subprocess.DEVNULL, stdout=given, stderr=given, env={**environment, **settings})
    os.close(given)
    out = b""
    try:
        while piece := os.read(keeper, 4096):
            out += piece
    except OSError:
        pass
    os.close(keeper)
    return out, child.wait()


def slow(folder):
    """A text that takes over two seconds to come, through a pipe with a name."""
    def feed():
        with open(os.path.join(folder, "slow.mm"), "wb") as text:
            time.sleep(2.3)
            text.write(b"$c c $.\n")
    feeder = threading.Thread(target=feed)
    feeder.start()
    return feeder


def wiped(out):
    """Whether each line of progress is wiped before anything else is written, and the last too."""
    return out.count(b"\r\x1b[K") >= 2 and b"\r\x1b[Kslow.mm: no errors" in out.replace(b"\r\n", b"\n")


def tests(program, folder):
    with open(os.path.join(folder, "wrong.mm"), "wb") as text:
        text.write(WRONG)
    os.mkfifo(os.path.join(folder, "slow.mm"))
    check = [program, "check", "wrong.mm"]
    red = b"\x1b[1;31merror:\x1b[0m"
    out, status = on_terminal(check, folder, {"TERM": "xterm"})
    yield "colour on a terminal", red in out and status == 1
    yield "no colour by NO_COLOR", b"\x1b" not in on_terminal(check, folder, {"TERM": "xterm", "NO_COLOR": "1"})[0]
    yield "an empty NO_COLOR is not set", red in on_terminal(check, folder, {"TERM": "xterm", "NO_COLOR": ""})[0]
    yield "no colour on a dumb terminal", b"\x1b" not in on_terminal(check, folder, {"TERM": "dumb"})[0]
    yield "no colour by --color never", b"\x1b" not in on_terminal(check + ["--color", "never"], folder, {"TERM": "xterm"})[0]
    yield "colour by --color always", red in on_terminal(check + ["--color", "always"], folder, {"TERM": "dumb"})[0]
    feeder = slow(folder)
    out, status = on_terminal([program, "check", "slow.mm"], folder, {"TERM": "xterm"})
    feeder.join()
    yield "progress", b"slow.mm: checking 0.0 MB, 1 s" in out and wiped(out) and status == 0
    feeder = slow(folder)
    yield "no progress if quiet", on_terminal([program, "check", "--quiet", "slow.mm"], folder, {"TERM": "xterm"})[0] == b""
    feeder.join()
    feeder = slow(folder)
    piped = subprocess.run([program, "check", "wrong.mm", "slow.mm"], cwd=folder, capture_output=True, check=False)
    feeder.join()
    yield "plain ASCII on pipes", all(byte == 10 or 32 <= byte < 127 for byte in piped.stdout) and piped.stderr == b""


def main():
    program = os.path.abspath(sys.argv[1])
    with tempfile.TemporaryDirectory() as folder:
        results = list(tests(program, folder))
    for name, passed in results:
        print("ok  " if passed else "FAILED", name)
    failed = sum(not passed for _, passed in results)
    print(f"{len(results) - failed} passed, {failed} failed")
    sys.exit(1 if failed else 0)


main()
