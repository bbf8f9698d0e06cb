"""Tries the program on real files that it must not destroy, and looks at every file after each command. See outputs.sh."""

import os
import resource
import shutil
import signal
import stat
import subprocess
import sys
import tempfile
import time

import lanes

PROGRAM = os.path.realpath(sys.argv[1])
EXAMPLES = os.path.join(os.path.dirname(os.path.abspath(__file__)), "..", "examples")
NOBODY = 65534
DAYS = ["2024-01-01", "2099-12-31"]
LIMIT = 60

held, failed, skipped = 0, 0, 0


def tell(message, faults):
    global held, failed
    if faults:
        failed += 1
        print(f"FAILED   {message}: {'; '.join(faults)}", flush=True)
    else:
        held += 1
        print(f"held     {message}", flush=True)


def skip(message):
    global skipped
    skipped += 1
    print(f"skipped  {message}", flush=True)


def look():
    """Each name below the working folder with its kind and mode, and a file's bytes or a link's target."""
    seen = {}
    for folder, folders, names in os.walk("."):
        for name in folders + names:
            path = os.path.join(folder, name)[2:]
            kind = os.lstat(path).st_mode
            if stat.S_ISREG(kind):
                with open(path, "rb") as file:
                    seen[path] = (kind, file.read())
            elif stat.S_ISLNK(kind):
                seen[path] = (kind, os.readlink(path))
            else:
                seen[path] = (kind, None)
    return seen


def changed(before, after, written):
    """What is no longer as it was, but for the files that were to be written."""
    faults = []
    for path in sorted(before.keys() | after.keys()):
        if path in written:
            continue
        if path not in after:
            faults.append(f"{path} is gone")
        elif path not in before:
            faults.append(f"{path} was made")
        elif before[path] != after[path]:
            faults.append(f"{path} was changed")
    return faults


def start(words, **how):
    how.setdefault("stdout", subprocess.PIPE)
    how.setdefault("stderr", subprocess.PIPE)
    how.setdefault("stdin", subprocess.DEVNULL)
    return subprocess.Popen([PROGRAM, *words], **how)


def attempt(message, words, status, says=None, written=(), then=None, **how):
    """Runs the program, and looks at its status, at what it says, and at all files. What stands then may be looked at further."""
    before = look()
    program = start(words, **how)
    try:
        out = program.communicate(timeout=LIMIT)[0]
    except subprocess.TimeoutExpired:
        program.kill()
        program.communicate()
        return tell(message, ["it didn't end"])
    faults = changed(before, look(), written)
    if program.returncode != status:
        faults.append(f"status {program.returncode} in place of {status}, {out!r}")
    if says is not None and out is not None and out != says:
        faults.append(f"it said {out!r} in place of {says!r}")
    if then:
        faults += then()
    tell(message, faults)


def bytes_of(path):
    with open(path, "rb") as file:
        return file.read()


def without_fronts(replies):
    """The reply lines without their last field, which tells how many records there were when the line was answered."""
    return [line.rsplit(b"|", 1)[0] for line in replies.split(b"\n")]


def mode_of(path):
    return stat.S_IMODE(os.stat(path).st_mode)


def records_of(path):
    """How many frames the journal has, by docs/journal-format.md; less than none where its form is off."""
    contents = bytes_of(path)
    if contents[:16] != b"REP-P JOURNAL 1\n":
        return -1
    gate, count = 16, 0
    while gate < len(contents):
        if contents[gate] != 0xA5:
            return count
        gate += 13 + int.from_bytes(contents[gate + 1 : gate + 3], "big")
        count += 1
    return -1


def afd_faults(path, lines):
    """An AFD of so many lines, and nothing else in the file."""
    found = bytes_of(path).split(b"\r\n")
    faults = [] if len(found) == lines + 1 and found[-1] == b"" else [f"{path} has {len(found) - 1} lines"]
    if not bytes_of(path).startswith(b"000000000"):
        faults.append(f"{path} doesn't begin as an AFD")
    return faults


def extract(journal, out):
    return ["extract", "site.toml", journal, *DAYS, out]


def begin(name):
    """A new folder with a site, lanes and a journal of six records, as the working folder."""
    os.chdir(base)
    os.mkdir(name)
    os.chdir(name)
    for file in ("site.toml", "workers.lane", "marks.lane"):
        shutil.copy(os.path.join(EXAMPLES, file), file)
    shutil.copy(os.path.join(EXAMPLES, "acme-day.lane"), "d")
    for words in (["create", "site.toml", "j"], ["run", "site.toml", "j", "workers.lane"], ["run", "site.toml", "j", "marks.lane"]):
        subprocess.run([PROGRAM, *words], check=True, stdout=subprocess.DEVNULL)
    for file in ("workers.lane.out", "marks.lane.out"):
        os.remove(file)


REFUSED = dict(status=5, says=b"FAULT|5\n")


def slips():
    begin("slips")
    attempt("extract to the journal", extract("j", "j"), **REFUSED)
    os.symlink("j", "by-symlink")
    attempt("extract to a symbolic link to the journal", extract("j", "by-symlink"), **REFUSED)
    os.link("j", "c.out")
    shutil.copy("marks.lane", "c")
    attempt("run with replies over a hard link to the journal", ["run", "site.toml", "j", "c"], **REFUSED)
    attempt("run with replies over the journal", ["run", "site.toml", "c.out", "c"], **REFUSED)
    os.remove("c.out")
    os.symlink("j", "c.out")
    attempt("run with replies over a symbolic link to the journal", ["run", "site.toml", "j", "c"], **REFUSED)
    os.remove("c.out")
    attempt("print over the lane", ["print", "d", "d", "-0300"], **REFUSED)
    attempt("print over the lane by another spelling", ["print", "d", "./d", "-0300"], **REFUSED)
    attempt("extract over the site", extract("j", "site.toml"), **REFUSED)
    os.link("j", "by-hard-link")
    attempt("extract to a hard link to the journal", extract("j", "by-hard-link"), **REFUSED)
    attempt("extract out of a symbolic link, to the journal", extract("by-symlink", "j"), **REFUSED)
    attempt("extract to the journal over two links", extract("by-symlink", "by-hard-link"), **REFUSED)
    os.mkdir("folder")
    os.symlink("folder", "by-folder")
    os.symlink("../j", "folder/j")
    attempt("extract to the journal through linked folders", extract("j", "by-folder/j"), **REFUSED)
    attempt("extract to the journal by its whole path", extract("j", os.path.abspath("j")), **REFUSED)
    os.symlink("site.toml", "s.out")
    shutil.copy("marks.lane", "s")
    attempt("run with replies over the site", ["run", "site.toml", "j", "s"], **REFUSED)
    attempt("run with replies named as a journal that isn't there", ["run", "site.toml", "n.out", "n"], **REFUSED)
    attempt("print over a lane that isn't there", ["print", "n", "n", "-0300"], **REFUSED)
    attempt("extract of dates out of form over the journal", ["extract", "site.toml", "j", "x", "y", "j"], **REFUSED)


def standard_output():
    begin("standard")
    for message, words, target in (
        ("receipt appended to the journal", ["receipt", "site.toml", "j", "4"], "j"),
        ("counts of an extraction appended to the journal", extract("j", "afd"), "j"),
        ("counts of a run appended to the journal", ["run", "site.toml", "j", "marks.lane"], "j"),
        ("counts of a run appended to the lane", ["run", "site.toml", "j", "marks.lane"], "marks.lane"),
        ("replies appended to the lane", ["print", "d", "afd", "-0300"], "d"),
        ("CREATED appended to the site", ["create", "site.toml", "new"], "site.toml"),
    ):
        with open(target, "ab") as out:
            attempt(f"standard output: {message}", words, 5, stdout=out)
    open("afd", "wb").close()
    with open("afd", "ab") as out:
        attempt("standard output: the file of the AFD too", extract("j", "afd"), 5, stdout=out)
    with open("told", "wb") as out:
        attempt("standard output: a file of its own", extract("j", "afd"), 0, written=("afd", "told"), stdout=out, then=lambda: afd_faults("afd", 9))


def closed(message, words, written=(), then=None, streams=(1,)):
    attempt(message, words, 5, written=written, then=then, stdout=None, preexec_fn=lambda: [os.close(stream) for stream in streams])


def closed_output():
    begin("closed")
    for streams, which in (((1,), "closed standard output"), ((0, 1, 2), "all standard streams closed")):
        closed(f"{which}: help", ["--help"], streams=streams)
        closed(f"{which}: extract", extract("j", "afd"), written=("afd",), then=lambda: afd_faults("afd", 9), streams=streams)
        closed(f"{which}: receipt", ["receipt", "site.toml", "j", "4"], streams=streams)
        closed(f"{which}: print", ["print", "d", "afd", "-0300"], streams=streams)
        closed(f"{which}: run", ["run", "site.toml", "j", "marks.lane"], written=("marks.lane.out",), then=replies_alone, streams=streams)
        closed(f"{which}: create", ["create", "site.toml", "new"], written=("new",), then=lambda: one_record("new"), streams=streams)
        os.remove("new")


def replies_alone():
    lines = bytes_of("marks.lane.out").splitlines()
    return [] if len(lines) == 3 and all(line.startswith(b"R|") for line in lines) else [f"the replies are {lines}"]


def one_record(path):
    return [] if records_of(path) == 1 else [f"{path} has {records_of(path)} records"]


def other_kinds():
    begin("kinds")
    os.mkdir("folder")
    attempt("extract to a folder", extract("j", "folder"), **REFUSED)
    attempt("a folder as the journal of extract", extract("folder", "afd"), 6, b"FAULT|6\n")
    attempt("a folder as the journal of run", ["run", "site.toml", "folder", "marks.lane"], 6, b"FAULT|6\n")
    attempt("a folder as the journal of create", ["create", "site.toml", "folder"], 6, b"FAULT|6\n")
    attempt("a folder as the site", ["create", "folder", "new"], 4, b"FAULT|4\n")
    attempt("a folder as the lane", ["print", "folder", "afd", "-0300"], 4)
    attempt("extract into a folder that isn't there", extract("j", "nowhere/afd"), **REFUSED)
    attempt("create in a folder that isn't there", ["create", "site.toml", "nowhere/j"], 6, b"FAULT|6\n")
    os.mkfifo("pipe")
    for words in (extract("pipe", "afd"), ["receipt", "site.toml", "pipe", "4"], ["run", "site.toml", "pipe", "marks.lane"], ["create", "site.toml", "pipe"]):
        attempt(f"a pipe as the journal of {words[0]}", words, 6, b"FAULT|6\n")
    reader = subprocess.Popen(["cat", "pipe"], stdout=subprocess.PIPE)
    attempt("extract to a pipe", extract("j", "pipe"), 0, b"EXTRACT|1|6|1462\n")
    got = reader.communicate(timeout=LIMIT)[0]
    tell("the pipe's reader has the AFD", [] if len(got) == 1462 and got.startswith(b"000000000") else [f"it has {len(got)} bytes"])
    attempt("extract to /dev/full", extract("j", "/dev/full"), 5, b"FAULT|5\n")
    attempt("print to /dev/full", ["print", "d", "/dev/full", "-0300"], 5)
    with open("/dev/full", "wb") as full:
        attempt("receipt to a full standard output", ["receipt", "site.toml", "j", "4"], 5, stdout=full)
    os.symlink("/dev/full", "marks.lane.out")
    attempt("run with replies to /dev/full", ["run", "site.toml", "j", "marks.lane"], 5)
    os.remove("marks.lane.out")
    attempt("a device as the journal", extract("/dev/null", "afd"), 6, b"FAULT|6\n")
    attempt("a device as the site", ["create", "/dev/null", "new"], 3)


def device_shared():
    begin("shared")
    os.mkfifo("slow")
    os.symlink("/dev/null", "slow.out")
    shutil.copy("j", "j2")
    first = start(["run", "site.toml", "j", "slow"])
    with open("slow", "w") as lane:
        lane.write("L|1|01\nM|1|11144477735|1|2024-03-04T08:00:00-0300\n")
        lane.flush()
        time.sleep(0.5)
        attempt("/dev/null as the output of two programs at once", extract("j2", "/dev/null"), 0, b"EXTRACT|1|6|1462\n")
        attempt("print to /dev/null twice", ["print", "d", "/dev/null", "-0300"], 0, stdout=subprocess.DEVNULL)
    out = first.communicate(timeout=LIMIT)[0]
    tell("the first of them goes on", [] if (first.returncode, out) == (0, b"RUN|1|1|1|0|6\n") else [f"{first.returncode}, {out!r}"])


def missing_journal():
    begin("missing")
    blank = dict(status=9, says=b"FAULT|9|BLANK\n")
    attempt("run over a missing journal makes none", ["run", "site.toml", "none", "marks.lane"], **blank)
    attempt("extract from a missing journal makes none", extract("none", "afd"), **blank)
    attempt("receipt from a missing journal makes none", ["receipt", "site.toml", "none", "4"], **blank)
    os.symlink("gone", "dangling")
    attempt("run over a link to nothing makes nothing", ["run", "site.toml", "dangling", "marks.lane"], **blank)
    attempt("create at a link to nothing", ["create", "site.toml", "dangling"], 6, b"FAULT|6\n")
    attempt("create over a journal", ["create", "site.toml", "j"], 9, b"FAULT|9|PRESENT\n")
    attempt("create over another file", ["create", "site.toml", "marks.lane"], 9, b"FAULT|9|FOREIGN\n")
    attempt("create from a site that is refused makes no journal", ["create", "marks.lane", "new"], 3)
    attempt("create from a missing site makes no journal", ["create", "none.toml", "new"], 4, b"FAULT|4\n")
    attempt("a lane that is missing", ["run", "site.toml", "j", "none.lane"], 4)
    attempt("create makes it", ["create", "site.toml", "new"], 0, b"CREATED|1\n", written=("new",), then=lambda: one_record("new"))


def modes():
    begin("modes")
    older = os.umask(0o022)
    attempt("create", ["create", "site.toml", "new"], 0, written=("new",))
    attempt("run", ["run", "site.toml", "j", "marks.lane"], 0, written=("marks.lane.out",))
    attempt("extract", extract("j", "afd"), 0, written=("afd",))
    os.umask(older)
    for path in ("new", "marks.lane.out", "afd"):
        tell(f"{path} is made with mode 0600", [] if mode_of(path) == 0o600 else [oct(mode_of(path))])
    for path in ("afd", "marks.lane.out", "j"):
        os.chmod(path, 0o640)
    attempt("extract to an older file", extract("j", "afd"), 0, written=("afd",), then=lambda: afd_faults("afd", 9))
    attempt("run with replies to an older file", ["run", "site.toml", "j", "marks.lane"], 0, written=("marks.lane.out",))
    for path in ("afd", "marks.lane.out", "j"):
        tell(f"{path} keeps its mode 0640", [] if mode_of(path) == 0o640 else [oct(mode_of(path))])
    with open("afd", "ab") as file:
        file.write(b"x" * 5000)
    attempt("extract to a longer file empties it", extract("j", "afd"), 0, b"EXTRACT|1|6|1462\n", written=("afd",), then=lambda: afd_faults("afd", 9))


def as_nobody():
    os.setgroups([])
    os.setgid(NOBODY)
    os.setuid(NOBODY)


def read_only():
    begin("readonly")
    how = {}
    if os.geteuid() == 0:
        for path in (".", "j", "site.toml", "marks.lane"):
            os.chown(path, NOBODY, NOBODY)
        how = dict(preexec_fn=as_nobody)
    os.chmod("j", 0o400)
    attempt("extract from a journal of mode 0400", extract("j", "afd"), 0, b"EXTRACT|1|6|1462\n", written=("afd",), then=lambda: afd_faults("afd", 9), **how)
    attempt("receipt from a journal of mode 0400", ["receipt", "site.toml", "j", "4"], 0, **how)
    attempt("run over a journal of mode 0400", ["run", "site.toml", "j", "marks.lane"], 6, b"FAULT|6\n", **how)
    attempt("create over a journal of mode 0400", ["create", "site.toml", "j"], 6, b"FAULT|6\n", **how)
    os.remove("afd")
    os.chmod(".", 0o500)
    attempt("extract from a folder that may only be read", extract("j", "/dev/null"), 0, b"EXTRACT|1|6|1462\n", **how)
    attempt("extract into it", extract("j", "afd"), 5, b"FAULT|5\n", **how)
    attempt("create in it", ["create", "site.toml", "new"], 6, b"FAULT|6\n", **how)
    attempt("run with replies into it", ["run", "site.toml", "j", "marks.lane"], 6, b"FAULT|6\n", **how)
    os.chmod(".", 0o700)
    os.chmod("j", 0o000)
    attempt("extract from a journal that may not be read", extract("j", "afd"), 6, b"FAULT|6\n", **how)


def second_program():
    begin("second")
    os.mkfifo("slow")
    shutil.copy("j", "j2")
    first = start(["run", "site.toml", "j", "slow"])
    with open("slow", "w") as lane:
        lane.write("L|5|01\nM|1|11144477735|1|2024-03-05T08:00:00-0300\n")
        lane.flush()
        for _ in range(100):
            time.sleep(0.05)
            if os.path.exists("slow.out") and os.path.getsize("slow.out"):
                break
        os.link("j", "linked")
        attempt("run while one runs", ["run", "site.toml", "j", "marks.lane"], 6, b"FAULT|6\n")
        attempt("extract while one runs", extract("j", "afd"), 6, b"FAULT|6\n")
        attempt("receipt while one runs", ["receipt", "site.toml", "j", "4"], 6, b"FAULT|6\n")
        attempt("create while one runs", ["create", "site.toml", "j"], 6, b"FAULT|6\n")
        attempt("extract of another journal over the one that is worked on", extract("j2", "j"), **REFUSED)
        attempt("and over a hard link to it", extract("j2", "linked"), **REFUSED)
        attempt("print over it", ["print", "d", "j", "-0300"], 5)
        attempt("extract of another journal over the replies that are being written", extract("j2", "slow.out"), **REFUSED)
        lane.write("M|2|12345678909|1|2024-03-05T08:01:00-0300\n")
    out = first.communicate(timeout=LIMIT)[0]
    tell("the first of them goes on", [] if (first.returncode, out) == (0, b"RUN|1|2|2|0|8\n") else [f"{first.returncode}, {out!r}"])
    lines = bytes_of("slow.out").splitlines()
    tell("its replies are whole", [] if len(lines) == 2 and all(line.startswith(b"R|") for line in lines) else [f"{lines}"])
    os.mkfifo("pipe")
    first = start(extract("j", "pipe"))
    time.sleep(0.5)
    attempt("two that only read work at once", extract("j", "afd"), 0, b"EXTRACT|1|8|1740\n", written=("afd",))
    attempt("and none that writes beside them", ["run", "site.toml", "j", "marks.lane"], 6, b"FAULT|6\n")
    with open("pipe", "rb") as pipe:
        got = pipe.read()
    first.communicate(timeout=LIMIT)
    tell("the first reader ends well", [] if first.returncode == 0 and len(got) == 1740 else [f"{first.returncode}, {len(got)} bytes"])


def signalled():
    begin("signalled")
    os.mkfifo("slow")
    before = bytes_of("j")
    first = start(["run", "site.toml", "j", "slow"])
    with open("slow", "w") as lane:
        lane.write("L|5|01\nM|1|11144477735|1|2024-03-05T08:00:00-0300\nM|2|11144477735|1|2024-03-05T12:00:00-0300\n")
        lane.flush()
        for _ in range(100):
            time.sleep(0.05)
            if os.path.exists("slow.out") and bytes_of("slow.out").count(b"\n") == 2:
                break
        first.terminate()
        first.communicate(timeout=LIMIT)
    tell("SIGTERM ends a run", [] if first.returncode == -signal.SIGTERM else [f"{first.returncode}"])
    tell("the journal goes on from what it was", [] if bytes_of("j")[: len(before) - 1] == before[:-1] and records_of("j") == 8 else [f"{records_of('j')} records"])
    receipts = bytes_of("slow.out")
    os.remove("slow")
    with open("slow", "w") as lane:
        lane.write("L|5|01\nM|1|11144477735|1|2024-03-05T08:00:00-0300\nM|2|11144477735|1|2024-03-05T12:00:00-0300\n")
    attempt("the lane runs again", ["run", "site.toml", "j", "slow"], 0, b"RUN|1|2|2|0|8\n", written=("slow.out",))
    tell("each receipt is the first one", [] if without_fronts(bytes_of("slow.out")) == without_fronts(receipts) else ["they differ"])


def limited(limit, is_ignored):
    def prepare():
        if is_ignored:
            signal.signal(signal.SIGXFSZ, signal.SIG_IGN)
        else:
            signal.signal(signal.SIGXFSZ, signal.SIG_DFL)
        resource.setrlimit(resource.RLIMIT_FSIZE, (limit, limit))

    return dict(preexec_fn=prepare, restore_signals=False)


def long_files():
    begin("long")
    whole = bytes_of("j")
    with open("many.lane", "w") as lane:
        lane.write(lanes.inclusions(60, origin=7))
    for is_ignored, journal_status, status in ((True, 6, 5), (False, -signal.SIGXFSZ, -signal.SIGXFSZ)):
        which = "a limit of file sizes whose signal is ignored" if is_ignored else "a limit of file sizes whose signal kills"
        attempt(f"{which}: extract", extract("j", "afd"), status, written=("afd",), **limited(1000, is_ignored))
        attempt(f"{which}: run", ["run", "site.toml", "j", "many.lane"], journal_status, written=("j", "many.lane.out"), **limited(4000, is_ignored))
        faults = [] if bytes_of("j")[: len(whole) - 1] == whole[:-1] else ["its front was changed"]
        tell(f"{which}: the journal goes on from what it was", faults + ([] if records_of("j") > 6 else [f"{records_of('j')} records"]))
        attempt(f"{which}: and serves the lane when it may", ["run", "site.toml", "j", "marks.lane"], 0, b"RUN|1|3|3|0|%d\n" % records_of("j"), written=("marks.lane.out",))
        with open("j", "wb") as journal:
            journal.write(whole)
    with open("long", "wb") as file:
        file.write(b"L|9|00\n")
        file.truncate(300_000_000)
    attempt("300 MB as the site", ["run", "long", "j", "marks.lane"], 10, b"FAULT|10\n")
    attempt("300 MB as the lane of run", ["run", "site.toml", "j", "long"], 10, written=("long.out",))
    attempt("300 MB as the lane of print", ["print", "long", "afd", "-0300"], 10, b"FAULT|10\n")
    attempt("300 MB as the journal", extract("long", "afd"), 9, b"FAULT|9|FOREIGN\n")
    attempt("300 MB as an output", extract("j", "long"), 0, b"EXTRACT|1|6|1462\n", written=("long",), then=lambda: afd_faults("long", 9))


def full_disk():
    small = os.environ.get("SMALL")
    if not small:
        return skip("a full file system: SMALL names no folder on a small one")
    begin("full")
    journal, out, stuff = (os.path.join(small, name) for name in ("j", "afd", "stuff"))
    shutil.copy("j", journal)
    older = bytes_of(journal)
    with open(out, "wb") as file:
        file.write(b"older")
    try:
        with open(stuff, "wb", buffering=0) as file:
            while True:
                file.write(b"x" * 4096)
    except OSError:
        pass
    with open("many.lane", "w") as lane:
        lane.write(lanes.inclusions(2000, origin=7))
    attempt("a full file system: run", ["run", "site.toml", journal, "many.lane"], 6, written=("many.lane.out",))
    tell("a full file system: the journal goes on from what it was", [] if bytes_of(journal)[: len(older) - 1] == older[:-1] else ["its front was changed"])
    attempt("a full file system: create", ["create", "site.toml", os.path.join(small, "new")], 6)
    attempt("a full file system: receipt", ["receipt", "site.toml", journal, "4"], 0)
    os.remove(stuff)
    attempt("and with room again: run", ["run", "site.toml", journal, "marks.lane"], 0, written=("marks.lane.out",))
    attempt("and with room again: extract", extract(journal, out), 0)
    for path in (journal, out, os.path.join(small, "new")):
        if os.path.exists(path):
            os.remove(path)


base = tempfile.mkdtemp(prefix="rep-outputs-")
os.chmod(base, 0o755)
try:
    shutil.copy(PROGRAM, os.path.join(base, "rep"))
    PROGRAM = os.path.join(base, "rep")
    for part in (
        slips,
        standard_output,
        closed_output,
        other_kinds,
        device_shared,
        missing_journal,
        modes,
        read_only,
        second_program,
        signalled,
        long_files,
        full_disk,
    ):
        part()
finally:
    os.chdir("/")
    shutil.rmtree(base)
print(f"{held} held, {failed} failed, {skipped} skipped")
sys.exit(0 if failed == 0 and held > 0 else 1)
