"""The proved program, and a folder in which it is timed."""

import os
import subprocess
import sys
import time

import lanes


class Bench:
    """Runs the program on files of one folder. A run that ends or says otherwise than it should ends the script."""

    def __init__(self, program, folder):
        self.program, self.folder = program, folder

    def path(self, name):
        return os.path.join(self.folder, name)

    def write(self, name, text):
        with open(self.path(name), "w") as file:
            file.write(text)

    def run(self, command, *words, last=None):
        """How many seconds a command takes, and what it says. Its last line is to be `last`, where one is given."""
        begin = time.perf_counter()
        done = subprocess.run([self.program, command, *words], stdout=subprocess.PIPE, cwd=self.folder)
        took = time.perf_counter() - begin
        said = done.stdout.decode("latin-1").splitlines()[-1:]
        if done.returncode != 0 or last is not None and said != [last]:
            sys.exit(f"{command}: status {done.returncode}, {said} in place of {last!r}")
        return took, done.stdout

    def peak(self, command, *words):
        """The peak of memory of a command, in MiB. GNU time starts the program from a small process, whose memory isn't counted."""
        timed = ["/usr/bin/time", "-f", "%M", self.program, command, *words]
        done = subprocess.run(timed, stdout=subprocess.DEVNULL, stderr=subprocess.PIPE, cwd=self.folder)
        return int(done.stderr.split()[-1]) / 1024

    def begin_journal(self, staff):
        """Makes a journal anew, in which so many employees are included. It answers the count of its records."""
        if os.path.exists(self.path("journal")):
            os.remove(self.path("journal"))
        self.write("site", lanes.SITE)
        self.write("workers", lanes.inclusions(staff))
        self.run("create", "site", "journal", last="CREATED|1")
        self.run("run", "site", "journal", "workers", last=f"RUN|1|{staff}|{staff}|0|{1 + staff}")
        return 1 + staff

    def grow_journal(self, records, to, staff):
        """Adds clockings by a lane of its own, so that no line is a repeat, and answers the count of records then."""
        if to <= records:
            return records
        self.write("marks", lanes.clockings(to - records, staff, origin=1, first=records))
        self.run("run", "site", "journal", "marks", last=f"RUN|1|{to - records}|{to - records}|0|{to}")
        return to

    def loop(self, records, sync):
        """How many seconds the plain loop in C takes for so many records."""
        if os.path.exists(self.path("loop.journal")):
            os.remove(self.path("loop.journal"))
        words = [self.path("loop"), self.path("loop.journal"), str(records), sync]
        begin = time.perf_counter()
        subprocess.run(words, stdout=subprocess.PIPE, check=True)
        return time.perf_counter() - begin
