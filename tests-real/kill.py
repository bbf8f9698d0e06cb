"""Kills a run of the program at random moments, and looks at what stands. See kill.sh."""

import hashlib
import os
import random
import subprocess
import sys
import tempfile
import time

import lanes

ROUNDS = 50
KILLS_A_ROUND = 4
STAFF = 300
CLOCKED = 900
EXTRACTIONS = 12
ORIGIN = 9
SEED = 1510

program = sys.argv[1]


def fail(message):
    sys.exit(f"FAILED: {message}")


def mixed_lane(with_extractions):
    """An operator's lane, and what is to come of each line: the number of its record, the code of its refusal, or an extraction.

    Employees are included, clocked and some of them excluded for good. An excluded one's clocking that comes at once is refused, and
    one that was made before is recorded. In between lines are sent again, and where the program takes it the AFD is asked for.
    """
    dice = random.Random(SEED)
    staff = lanes.workers(STAFF)
    head, lines, due = f"L|{ORIGIN}|00", [], []
    records, sent = 1, []
    waiting, here, gone = list(range(STAFF)), [], []

    def order(text, is_recorded=True):
        nonlocal records
        line = text.format(seq=1 + len(lines))
        if is_recorded:
            records += 1
            sent.append((line, records))
            due.append(records)
        else:
            due.append("02")
        lines.append(line)

    clocked = 0
    while waiting or clocked < CLOCKED:
        cast = dice.randrange(10)
        if waiting and (cast < 3 or not here):
            one = waiting.pop(0)
            here.append(one)
            order(f"C|{{seq}}|I|{staff[one]}|W{one:04}||52998224725")
        elif cast < 6 and here:
            clocked += 1
            order(f"M|{{seq}}|{staff[dice.choice(here)]}|1|{lanes.stamp(clocked)}")
        elif cast == 6 and len(here) > 20:
            one = here.pop(dice.randrange(len(here)))
            gone.append(one)
            order(f"C|{{seq}}|E|{staff[one]}|||52998224725")
        elif cast == 7 and gone:
            order(f"M|{{seq}}|{staff[dice.choice(gone)]}|0", is_recorded=False)
        elif cast == 8 and gone:
            order(f"M|{{seq}}|{staff[dice.choice(gone)]}|1|{lanes.stamp(clocked)}")
        elif sent:
            line, number = dice.choice(sent)
            lines.append(line)
            due.append(number)
    if with_extractions:
        # the whole of what stands by then, each time a line of its own
        for place in range(EXTRACTIONS, 0, -1):
            at = len(lines) * place // EXTRACTIONS
            lines.insert(at, f"X|{900000 + place}|2024-01-01|2035-12-31")
            due.insert(at, "X")
    return "\n".join([head, *lines]) + "\n", due, records


class Journal:
    """The frames of a journal, by docs/journal-format.md. The contents have to be a journal, its numbers without a gap, and its
    chain sound."""

    def __init__(self, path):
        with open(path, "rb") as file:
            self.contents = file.read()
        self.lines, self.sources = [], []
        if self.contents[:16] != b"REP-P JOURNAL 1\n":
            fail("the magic is gone")
        gate = 16
        while True:
            if gate >= len(self.contents):
                fail(f"no gate at {gate}")
            if self.contents[gate] != 0xA5:
                break
            size = int.from_bytes(self.contents[gate + 1 : gate + 3], "big")
            end = gate + 13 + size
            if size not in (36, 73, 118, 137, 331) or end >= len(self.contents):
                fail(f"the frame behind the gate at {gate} is broken")
            self.sources.append((int.from_bytes(self.contents[gate + 3 : gate + 5], "big"), int.from_bytes(self.contents[gate + 5 : gate + 13], "big")))
            self.lines.append(self.contents[gate + 13 : end])
            gate = end
        self.gate = gate
        self.check_lines()

    def check_lines(self):
        hash_ = b""
        for place, line in enumerate(self.lines):
            if line[:9] != b"%09d" % (place + 1):
                fail(f"record {place + 1} has the number {line[:9]!r}")
            if line[9:10] == b"7":
                if line[73:] != hashlib.sha256(line[:73] + hash_).hexdigest().encode():
                    fail(f"the chain is broken at record {place + 1}")
                hash_ = line[73:]

    def must_go_on_from(self, older):
        """What stood in front of the closed gate before stands so still."""
        if self.contents[: older.gate] != older.contents[: older.gate]:
            fail(f"a byte in front of the gate at {older.gate} was changed")

    def must_keep(self, receipt):
        """The record that a receipt tells stands, with its number, source, stamps and hash."""
        seq, number, marked, recorded, hash_ = receipt
        place = int(number) - 1
        if not 0 <= place < len(self.lines):
            fail(f"record {int(number)} was receipted and is lost")
        line = self.lines[place]
        if self.sources[place] != (ORIGIN, int(seq)):
            fail(f"record {place + 1} came by {self.sources[place]}, and not by line {int(seq)}")
        if line[9:10] == b"7":
            stands = [line[10:34], line[46:70], line[73:]]
        else:
            stands = [b"", line[10:34], b""]
        if stands != [marked, recorded, hash_]:
            fail(f"record {place + 1} isn't as its receipt {receipt} says")


class Replies:
    """The replies that were written whole: receipts and refusals by the lane's line, without their fronts, and what was extracted."""

    def __init__(self, path):
        self.receipts, self.refusals, self.extracts = {}, {}, {}
        text = b""
        if os.path.exists(path):
            with open(path, "rb") as file:
                text = file.read()
        at = 0
        while True:
            end = text.find(b"\n", at)
            if end < 0:
                break
            fields = text[at:end].split(b"|")
            at, line = end + 1, int(fields[1])
            if fields[0] == b"R" and len(fields) == 8:
                self.receipts[line] = fields[2:7]
            elif fields[0] == b"N" and len(fields) == 5:
                self.refusals[line] = fields[3]
            elif fields[0] == b"F" and len(fields) == 5:
                size = int(fields[3])
                if at + size > len(text):
                    break
                self.extracts[line] = (text[at : at + size], int(fields[4]))
                at += size
            else:
                fail(f"no reply: {text[at:end]!r}")

    def must_be_due(self, due):
        """Each line was answered by what is to come of it, whatever was killed before."""
        for line, receipt in self.receipts.items():
            if due[line - 2] != int(receipt[1]):
                fail(f"line {line} was receipted by record {int(receipt[1])}, and not by {due[line - 2]}")
        for line, code in self.refusals.items():
            if due[line - 2] != code.decode():
                fail(f"line {line} was refused by {code!r}, and not answered by {due[line - 2]}")
        for line in self.extracts:
            if due[line - 2] != "X":
                fail(f"line {line} is no extraction")

    def must_be_extracted_from(self, journal):
        """An extraction of all days has the records up to its front, line for line."""
        for line, (text, front) in self.extracts.items():
            if front > len(journal.lines):
                fail(f"line {line} extracted {front} records of {len(journal.lines)}")
            if text.split(b"\r\n")[1 : 1 + front] != journal.lines[:front]:
                fail(f"line {line} extracted other records than stand")

    def count(self):
        return len(self.receipts) + len(self.refusals) + len(self.extracts)


def call(words, wanted):
    done = subprocess.run([program, *words], stdout=subprocess.PIPE, stderr=subprocess.PIPE)
    if done.returncode != wanted:
        fail(f"{words[0]}: status {done.returncode}, {done.stdout!r} {done.stderr!r}")
    return done.stdout


def run_for(seconds, words):
    """Starts the program and kills it after so many seconds. Whether it was running still."""
    with subprocess.Popen([program, *words], stdout=subprocess.DEVNULL, stderr=subprocess.DEVNULL) as child:
        try:
            child.wait(seconds)
            return False
        except subprocess.TimeoutExpired:
            child.kill()
            child.wait()
            return True


def takes_extractions(site, journal, lane):
    """Whether the program answers an extraction that an operator's lane orders."""
    with open(lane, "w") as file:
        file.write(f"L|{ORIGIN}|00\nX|1|2024-01-01|2024-01-02\n")
    done = subprocess.run([program, "run", site, journal, lane], stdout=subprocess.DEVNULL)
    return done.returncode == 0


def main():
    moments = random.Random(SEED)
    kept = killed = again = extracted = 0
    with tempfile.TemporaryDirectory() as folder:
        site, lane, journal = (os.path.join(folder, name) for name in ("site.toml", "lane", "journal"))
        replies = lane + ".out"
        with open(site, "w") as file:
            file.write(lanes.SITE)
        call(["create", site, journal], 0)
        with_extractions = takes_extractions(site, journal, lane)
        text, due, total = mixed_lane(with_extractions)
        with open(lane, "w") as file:
            file.write(text)
        receipts = sum(isinstance(what, int) for what in due)
        refusals = due.count("02")
        counts = f"RUN|1|{len(due)}|{receipts}|{refusals}|{total}\n".encode()

        begin = time.perf_counter()
        said = call(["run", site, journal, lane], 1)
        whole = time.perf_counter() - begin
        if said != counts or len(Journal(journal).lines) != total:
            fail(f"a run that wasn't killed says {said!r}, and not {counts!r}")

        for _ in range(ROUNDS):
            for path in (journal, replies):
                os.remove(path)
            call(["create", site, journal], 0)
            receipted, before = {}, Journal(journal)
            for _ in range(KILLS_A_ROUND):
                if os.path.exists(replies):
                    os.remove(replies)
                # what is recorded already goes fast, so the moment lies within the time that the rest takes
                left = whole * (total - len(before.lines)) / total
                killed += run_for(moments.uniform(0, left), ["run", site, journal, lane])
                now, told = Journal(journal), Replies(replies)
                now.must_go_on_from(before)
                told.must_be_due(due)
                told.must_be_extracted_from(now)
                for line, receipt in told.receipts.items():
                    again += line in receipted
                    if receipted.setdefault(line, receipt) != receipt:
                        fail(f"line {line} has two receipts: {receipted[line]} and {receipt}")
                for receipt in receipted.values():
                    now.must_keep(receipt)
                extracted += len(told.extracts)
                before = now
            kept += len(receipted)

            said = call(["run", site, journal, lane], 1)
            if said != counts:
                fail(f"the last run says {said!r}, and not {counts!r}")
            final, stands = Replies(replies), Journal(journal)
            stands.must_go_on_from(before)
            final.must_be_due(due)
            final.must_be_extracted_from(stands)
            if final.count() != len(due) or len(stands.lines) != total:
                fail("the last run doesn't answer each line")
            for line, receipt in final.receipts.items():
                stands.must_keep(receipt)
                if receipted.get(line, receipt) != receipt:
                    fail(f"line {line} was receipted by {receipted[line]} and then by {receipt}")

    repeats = receipts - (total - 1)
    print(f"{ROUNDS * KILLS_A_ROUND} kills (seed {SEED}), {killed} of them while the program ran, over a lane of {len(due)} lines:")
    print(f"{total - 1} new, {repeats} sent again, {refusals} of excluded employees and refused, {due.count('X')} extractions")
    print(f"{kept} lines had their receipt before the end of a round's kills, {again} of them twice, and {extracted} extractions were whole")
    print("each receipted record stood after each kill and was answered again with the same number, stamps and hash; the numbers run")
    print("from 1 on without a gap; the chain is sound; no byte in front of a closed gate was changed from kill to kill. passed")


main()
