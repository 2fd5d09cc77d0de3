#!/usr/bin/env python3
"""kill.py DESK ROUNDS SEED: starts desks, sends them calls and kills each without warning at a random moment.

After each kill every call that was answered has to be in the table's file, at most one further call may be, and the file has to load. While a desk runs, the
file is looked at over and over: at each look it has to be whole. What should be in it is worked out here, from the rules of the job table, by no code of the
desk's. A kill shows what a program leaves that dies, and nothing of what a disk has then: that files are flushed before an answer is tested in
sessions/table.md.
"""
import os
import random
import re
import select
import subprocess
import sys
import tempfile
import time

SLOTS, SLOT, MARK = 64, 5, b"BZTABLE1"
FREE, OPEN, WAS_OPEN, WAS_ABSENT, HOLD, WAS_ON_HOLD = range(6)
CANCELLED = (WAS_OPEN, WAS_ABSENT, WAS_ON_HOLD)
CALLS = ("open", "cancel", "finish", "reinstate", "hold", "release")
LONGEST = 0.06  # seconds until a kill: some tens of calls
HANG = 60  # seconds: guards against a hang and measures nothing
FRESH = 100  # rounds until the next table is begun, which is full by then


def crc_table():
    for byte in range(256):
        for _ in range(8):
            byte = byte >> 1 ^ 0xC96C5795D7870F42 if byte & 1 else byte >> 1
        yield byte


CRC = list(crc_table())


def checksum(data):
    state = (1 << 64) - 1
    for byte in data:
        state = state >> 8 ^ CRC[(state ^ byte) & 255]
    return state ^ (1 << 64) - 1


def entries(data):
    """The slots of a file's bytes, each a state and a number; None where it isn't whole."""
    body, check = data[:-8], data[-8:]
    if len(data) != len(MARK) + SLOTS * SLOT + 8 or not body.startswith(MARK) or checksum(body) != int.from_bytes(check, "big"):
        return None
    slots = (body[at:at + SLOT] for at in range(len(MARK), len(body), SLOT))
    return [(slot[0], int.from_bytes(slot[1:], "big") if slot[0] else 0) for slot in slots]


def call(slots, name, number):
    """The slots after a call, or None where it is refused."""
    at = next((at for at, (state, held) in enumerate(slots) if state and held == number), None)
    state = slots[at][0] if at is not None else None
    after = {
        ("open", None): OPEN, ("cancel", None): WAS_ABSENT, ("cancel", OPEN): WAS_OPEN, ("cancel", HOLD): WAS_ON_HOLD, ("finish", OPEN): FREE,
        ("reinstate", WAS_OPEN): OPEN, ("reinstate", WAS_ABSENT): FREE, ("reinstate", WAS_ON_HOLD): HOLD, ("hold", OPEN): HOLD, ("release", HOLD): OPEN,
    }.get((name, state))
    if at is None:
        at = next((at for at, (state, _) in enumerate(slots) if not state), None)
    if after is None or at is None:
        return None
    slots = list(slots)
    slots[at] = (after, number if after else 0)
    return slots


def stamp(path):
    """When a file was written last, or None."""
    return os.stat(path).st_mtime_ns if os.path.exists(path) else None


def looked_at(path):
    """Whether the file, where there is one, is whole now."""
    try:
        with open(path, "rb") as file:
            return entries(file.read()) is not None
    except FileNotFoundError:
        return True


class Round:
    def __init__(self, desk, path, before, rng):
        self.desk, self.path, self.before, self.rng = desk, path, before, rng
        self.calls = [(rng.choice(CALLS), rng.randint(1, 90)) for _ in range(150)]
        self.looks = 0

    def killed(self):
        """Runs the desk until the kill; what it printed until then."""
        lines = "".join(f"{name} {number}\n" for name, number in self.calls)
        command = [self.desk, "--table", self.path, "--keep-going"]
        with subprocess.Popen(command, stdin=subprocess.PIPE, stdout=subprocess.PIPE, stderr=subprocess.STDOUT) as program:
            program.stdin.write(lines.encode())
            program.stdin.flush()
            # Every other desk is let come to its first answer, however slow the machine is.
            if self.rng.random() < 0.5:
                select.select([program.stdout], [], [], HANG)
            end = time.monotonic() + self.rng.uniform(0, LONGEST)
            while time.monotonic() < end:
                self.looks += 1
                if not looked_at(self.path):
                    raise AssertionError("the file was not whole while the desk ran")
            program.kill()
            return program.stdout.read().decode()

    def answered(self, printed):
        """How many calls were answered, each as the rules have it, and the slots after them."""
        slots, count = self.before, 0
        for line in printed.split("\n")[:-1]:
            answer = re.match(r"job (\d+):|line (\d+): refused", line)
            if not answer:
                continue
            name, number = self.calls[count]
            count += 1
            after = call(slots, name, number)
            served = answer[1] is not None
            if served != (after is not None) or answer[1] not in (None, str(number)) or answer[2] not in (None, str(count)):
                raise AssertionError(f"{name} {number} was answered with {line!r}")
            slots = after or slots
        return count, slots

    def kept(self):
        """What the file has, by its bytes; and a desk loads it."""
        if not os.path.exists(self.path):
            return [(FREE, 0)] * SLOTS
        with open(self.path, "rb") as file:
            slots = entries(file.read())
        if slots is None:
            raise AssertionError("the file is not whole")
        listed = subprocess.run([self.desk, "--table", self.path, "jobs"], capture_output=True, text=True, check=False)
        numbers = [int(number) for number in re.findall(r"^  job (\d+):", listed.stdout, re.M)]
        if listed.returncode or numbers != [number for state, number in slots if state]:
            raise AssertionError(f"a desk doesn't load the file: {listed.stderr}{listed.stdout}")
        return slots

    def run(self):
        """How many calls were answered, whether one more was kept, and what the file has."""
        count, slots = self.answered(self.killed())
        kept = self.kept()
        if kept == slots:
            return count, False, kept
        further = call(slots, *self.calls[count]) if count < len(self.calls) else None
        if kept != further:
            raise AssertionError(f"{count} calls were answered, and the file holds neither these nor one more")
        return count, True, kept


def main():
    desk, rounds, seed = sys.argv[1], int(sys.argv[2]), int(sys.argv[3])
    rng = random.Random(seed)
    answered = further = looks = left = 0
    # Beside the program, on a disk: where temporary files are kept in memory, nothing is flushed.
    with tempfile.TemporaryDirectory(dir=os.path.dirname(desk)) as folder:
        slots = None
        for number in range(rounds):
            if number % FRESH == 0:
                path, slots = os.path.join(folder, f"{number}.table"), [(FREE, 0)] * SLOTS
            turn = Round(desk, path, slots, rng)
            unfinished = stamp(path + ".new")
            try:
                count, one_more, slots = turn.run()
            except AssertionError as error:
                print(f"kill-test: round {number + 1} of seed {seed}: {error}")
                return 1
            answered, further, looks = answered + count, further + one_more, looks + turn.looks
            left += stamp(path + ".new") not in (None, unfinished)
    if answered < rounds / 4:
        print(f"kill-test: {rounds} desks answered {answered} calls in all, which shows nothing")
        return 1
    print(f"kill-test: {rounds} kills: all of {answered} answered calls were kept, {further} were kept and not answered yet, "
          f"{left} kills left a new file unfinished; {looks} looks meanwhile found a whole file")
    return 0


sys.exit(main())
