# Words a second of programs that read words line by line, taking turns. Usage:
#   turns.py SECONDS ROUNDS FOLDER INPUT COMMAND.. [-- FOLDER INPUT COMMAND..]..
# Each command is run in its folder on its input, repeated so often that a run takes about SECONDS of processor time. The fastest
# of ROUNDS runs is kept, since what disturbs a run can only make it slower; and the commands take turns, so that what goes on
# for longer slows all of them. Prints the words, which are lines, a second of each command.
import os
import subprocess
import sys
import tempfile


class Runner:
    def __init__(self, folder, words, *command):
        self.folder, self.command = folder, command
        with open(words, "rb") as file:
            self.words = file.read()
        self.input = tempfile.TemporaryFile()
        self.repeats = 0

    def repeat(self, times):
        # The input becomes `times` times the words.
        self.input.seek(0, os.SEEK_END)
        while self.repeats < times:
            more = min(times - self.repeats, 1000)
            self.input.write(more * self.words)
            self.repeats += more
        self.input.flush()

    def seconds(self):
        # The processor's seconds of one run, and not the clock's.
        self.input.seek(0)
        child = subprocess.Popen(self.command, cwd=self.folder, stdin=self.input, stdout=subprocess.DEVNULL)
        _, status, usage = os.wait4(child.pid, 0)
        child.returncode = os.waitstatus_to_exitcode(status)
        if child.returncode != 0:
            sys.exit(f"turns.py: {' '.join(self.command)}: ended with {child.returncode}")
        return usage.ru_utime + usage.ru_stime

    def fit(self, seconds):
        self.repeat(1)
        took = self.seconds()
        while took < seconds / 4:
            self.repeat(4 * self.repeats)
            took = self.seconds()
        self.repeat(max(self.repeats, int(self.repeats * seconds / took)))

    def rate(self, seconds):
        return self.repeats * self.words.count(b"\n") / seconds


def runners(arguments):
    parts = [[]]
    for argument in arguments:
        if argument == "--":
            parts.append([])
        else:
            parts[-1].append(argument)
    return [Runner(*part) for part in parts]


def main(seconds, rounds, *arguments):
    turns = runners(arguments)
    for runner in turns:
        runner.fit(float(seconds))
    took = [[runner.seconds() for runner in turns] for _ in range(int(rounds))]
    for runner, times in zip(turns, zip(*took)):
        print(round(runner.rate(min(times))))


main(*sys.argv[1:])
