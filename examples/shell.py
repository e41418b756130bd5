#!/usr/bin/env python3
"""Drives `./sfbuild shell` over a pipe: an index is built while a transaction writes, and its pairs are printed.

    python3 examples/shell.py    in a release or in the repository; examples/shell.out is what it prints
"""
import csv
import io
import os
import re
import subprocess

TOP = os.path.dirname(os.path.dirname(os.path.abspath(__file__)))


class Shell:
    def __init__(self):
        words = [os.path.join(TOP, "sfbuild"), "shell"]
        self.process = subprocess.Popen(words, stdin=subprocess.PIPE, stdout=subprocess.PIPE)
        # As it is sent, with each end of line as it is.
        self.input = io.TextIOWrapper(self.process.stdin, encoding="utf-8", newline="")
        self.answers = csv.reader(io.TextIOWrapper(self.process.stdout, encoding="utf-8", newline=""))

    def ask(self, record):
        """Sends a record, and gives the values of its answer and the lines that follow it, each without the record's number."""
        self.input.write(record + "\n")
        self.input.flush()
        outcome, *values = next(self.answers)[1:]
        if outcome != "ok":
            raise ValueError(f"{record}: {outcome} {' '.join(values)}")
        command, lines = re.split("[, ]", record)[0], []
        if command in ("pairs", "rest", "side", "status", "help"):
            lines = [next(self.answers)[1:] for _ in range(int(values[0]))]
        while command in ("switch", "abandon") and (not lines or lines[-1][0] != "pages"):
            lines.append(next(self.answers)[1:])
        return values, lines

    def quit(self):
        self.ask("quit")
        return self.process.wait()


def build():
    shell = Shell()
    shell.ask("table,2,int,text")
    for row in ("3,=three", "1,=one", "4,=four"):
        shell.ask("row," + row)
    [pages], _ = shell.ask("start,1,8,even:1,n:0")
    shell.ask("begin,A")
    for page in range(int(pages)):
        shell.ask("scan,0,0")
        # The page that was just copied changes behind the scan, and the build hears of it.
        shell.ask(f"update,A,{page}.0,{page + 7},=changed")
    _, entries = shell.ask("side,0")
    print("changes behind the scan:", len(entries))
    shell.ask("seal,0")
    shell.ask("load,0")
    _, status = shell.ask("status")
    print("phase:", next(line[1] for line in status if line[0] == "build"))
    shell.ask("commit,A")
    [record, verdict], _ = shell.ask("switch")
    print("verdict:", verdict)
    _, pairs = shell.ask("pairs,0")
    for _, key, rid in pairs:
        print(f"key {key} at {rid}")
    print("exit status:", shell.quit())


build()
