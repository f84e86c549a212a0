#!/usr/bin/env python3
"""The command as somebody sees it at a terminal, or through pipes that wait: tests/terminal.py HEADWORDS GRAMMAR WORDS
Progress of a long list, in a line that is written again and cleared at the end; nothing of it where it would disturb; answers
to what has come though more may follow; and an end where nobody reads on, though the input waits."""
import os
import pty
import subprocess
import sys
import threading
import time

headwords, grammar, words = sys.argv[1:]
CLEAR = "\r\x1b[K"


def check(right, what, *seen):
    if not right:
        sys.exit(f"terminal: {what}: {seen!r}")


def run(arguments, feed, stdin=subprocess.PIPE, stdout=subprocess.PIPE):
    """Runs with standard error at a terminal; hands back status, what was printed and what the terminal was told."""
    ours, theirs = pty.openpty()
    told = []

    def listen():
        while True:
            try:
                part = os.read(ours, 65536)
            except OSError:  # nobody has the terminal any more
                return
            told.append(part)

    listener = threading.Thread(target=listen)
    listener.start()
    process = subprocess.Popen([headwords, *arguments], stdin=stdin, stdout=theirs if stdout == "terminal" else stdout, stderr=theirs)
    os.close(theirs)
    printed = feed(process)
    status = process.wait(timeout=20)
    listener.join()
    os.close(ours)
    return status, printed, b"".join(told).decode()


def slowly(process):
    """A list that comes in parts, for longer than a second."""
    for _ in range(15):
        process.stdin.write(b"luces\n")
        process.stdin.flush()
        time.sleep(0.1)
    process.stdin.close()
    return process.stdout.read() if process.stdout else b""


# a list of unknown length: words, and no percent
status, printed, told = run(["read", grammar], slowly)
check(status == 0 and printed.count(b"luces\tluz\t") == 15, "slow list", status, printed)
lines = told.split("\r\n")
check(lines[0].startswith("\r") and " words\x1b[K" in lines[0] and "%" not in lines[0], "progress", told)
check(lines[0].rindex(CLEAR) + len(CLEAR) < len(lines[0]), "cleared before the summary", told)
check(lines[0].endswith("15 words: 15 with a reading, 0 none, 0 unread, 0 refused, 0 more"), "summary", told)

# quiet, or with the readings at the terminal too: no progress
status, printed, told = run(["read", "-q", grammar], slowly)
check(status == 0 and told == "", "quiet", status, told)
status, printed, told = run(["read", grammar], slowly, stdout="terminal")
check(status == 0 and "\x1b" not in told and told.count("luces\tluz\t") == 15, "readings at the terminal", told)


def read_late(process):
    """Reads a part, and then nothing for longer than a second."""
    process.stdin.close()
    first = process.stdout.read(200000)
    time.sleep(1.3)
    return first + process.stdout.read()


# a file: percent too
status, printed, told = run(["read", "--jobs", "2", "--file", words, grammar], read_late)
check(status == 0 and " %\x1b[K" in told and CLEAR in told, "percent", told[:300])

# somebody types: each line is answered at once, and no progress is shown
keyboard, theirs = pty.openpty()


def type_words(process):
    os.close(theirs)
    printed = b""
    for word in [b"luz", b"luzes"]:
        os.write(keyboard, word + b"\n")
        while not printed.endswith(b"\n\n"):
            printed += process.stdout.read1()
        printed += b"then "
        time.sleep(0.6)
    os.write(keyboard, b"\x04")
    return printed + process.stdout.read()


status, printed, told = run(["read", grammar], type_words, stdin=theirs)
right = "luz\tluz\tluZ (luz) 0 (singular)\tl:l u:u Z:z\n\nthen luzes\t+?\n\nthen ".encode()
check(status == 0 and printed == right and told == "", "typed words", status, printed, told)


def turn_away(process):
    """Takes one answer and goes, while the input stays open and says no more after a second word."""
    process.stdin.write(b"luces\n")
    process.stdin.flush()
    process.stdout.readline()
    process.stdout.close()
    process.stdin.write(b"luces\n")
    process.stdin.flush()
    process.wait(timeout=20)
    process.stdin.close()


status, _, told = run(["read", grammar], turn_away)
check(status == 1 and told == "", "a reader that goes away", status, told)
print("terminal: progress, answers as words come, and an end where nobody reads on")
