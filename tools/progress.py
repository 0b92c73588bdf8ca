#!/usr/bin/env python3
"""Runs rt, and says while it runs which crate is being proved.

    tools/progress.py [--log FILE] WORD rt ARGUMENT ..

rt ci prints nothing of a crate until it is done, which takes minutes. Here a line comes when the proof of a crate begins and one
when it ends, each with WORD before it. rt ci makes the folder out/ of a crate anew when it begins with it, and says `rt: NAME proved`;
the other commands of rt say `rt: chose --jobs 2 for NAME` when they begin with a crate and `logic=proved ..` when they end.
What rt itself prints comes out as it comes; so its last line is the last. With --log it goes to that file, and comes out only where
rt fails. The status is rt's. Nothing is judged here: the verdict is rt's.
"""
import os
import re
import select
import subprocess
import sys
import time

ROOT = os.path.dirname(os.path.dirname(os.path.abspath(__file__)))
# What rt says of a crate: rt ci when it is done with it, the other commands when they begin with it and, of the last begun, when it is done.
DONE = re.compile(r"rt: (\w+) ((?:proved|NOT PROVED|is kept)\b)")
BEGINS = re.compile(r"rt: chose --jobs \d+ for (\w+)$")
ENDS = re.compile(r"logic=(proved|not-proved)\b")


def made(name):
    """Another one where the crate's out/ was made anew."""
    try:
        return os.stat(os.path.join(ROOT, "crates", name, "out")).st_ino
    except OSError:
        return None


class Progress:
    def __init__(self, word, is_ci):
        with open(os.path.join(ROOT, "crates.txt")) as f:
            self.names = re.findall(r"^(\w+)[^:#\n]*:", f.read(), re.M)
        self.word, self.begun, self.ended, self.last = word, {}, set(), None
        self.earlier = {name: made(name) for name in self.names} if is_ci else {}

    def look(self):
        for name, was in self.earlier.items():
            if made(name) not in (None, was):
                self.begin(name)

    def read(self, line):
        done, begins, ends = DONE.match(line), BEGINS.match(line), ENDS.match(line)
        if done and self.earlier:
            self.end(*done.groups())
        elif begins and not self.earlier:
            self.begin(begins.group(1))
        elif ends and self.last:
            self.end(self.last, "proved" if ends.group(1) == "proved" else "NOT PROVED")

    def begin(self, name):
        if name not in self.begun and name not in self.ended:
            self.begun[name], self.last = time.time(), None if self.earlier else name
            self.say("proving %s" % name)

    def end(self, name, how):
        if name not in self.ended:
            self.ended.add(name)
            took = " (%d s)" % (time.time() - self.begun[name]) if name in self.begun else ""
            self.say("%s %s%s" % (name, how, took))

    def say(self, what):
        print("%s: %s" % (self.word, what), flush=True)


def run(word, command, log):
    progress, kept, rest = Progress(word, "ci" in command), open(log, "wb") if log else None, b""
    rt = subprocess.Popen(command, stdout=subprocess.PIPE, stderr=subprocess.STDOUT)
    while True:
        ready = select.select([rt.stdout], [], [], 1)[0]
        if not ready:
            progress.look()
            continue
        got = os.read(rt.stdout.fileno(), 65536)
        lines, end, rest = (rest + got).rpartition(b"\n") if got else (rest, b"", b"")
        out = kept or sys.stdout.buffer
        for line in (lines + end).splitlines(keepends=True):
            progress.read(line.decode(errors="replace").rstrip("\n"))
            out.write(line)
        out.flush()
        if not got:
            break
    status = rt.wait()
    if kept:
        kept.close()
        if status != 0:
            with open(log, "rb") as f:
                sys.stdout.buffer.write(f.read())
    return status


def main():
    words = sys.argv[1:]
    log = words[1] if words[:1] == ["--log"] else None
    words = words[2:] if log else words
    if len(words) < 2:
        sys.exit("use: tools/progress.py [--log FILE] WORD rt ARGUMENT ..")
    try:
        sys.exit(run(words[0], words[1:], log))
    except KeyboardInterrupt:
        sys.exit(130)


main()
