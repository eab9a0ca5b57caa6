#!/usr/bin/env python3
"""What a load of a number comes to, by the rules alone.

Usage: load_model.py NUMBER              the lines of its summary
       load_model.py --find FIRST LAST   numbers of this range in which tries are delayed and counts cleared

It shares no code with the program: ChaCha20, the table's rows that a load uses, and the delay rule are written
here anew, over Python's standard library.
"""
import hashlib
import hmac
import struct
import sys

START = 1000
SESSION = 300
# wrong tries, and the seconds to wait from then on; None is a lock
SCHEDULE = [(5, 30), (6, 60), (7, 300), (8, 900), (9, 3600), (10, None)]


def words(key, count):
    """The first words of the key stream of ChaCha20 under a key, with nonce 0."""
    made = []
    counter = 0
    while len(made) < count:
        state = list(struct.unpack("<4I", b"expand 32-byte k")) + list(struct.unpack("<8I", key))
        state += [counter & 0xFFFFFFFF, counter >> 32, 0, 0]
        block = state[:]

        def quarter(a, b, c, d):
            for x, y, z, turn in ((a, b, d, 16), (c, d, b, 12), (a, b, d, 8), (c, d, b, 7)):
                block[x] = (block[x] + block[y]) & 0xFFFFFFFF
                mixed = block[z] ^ block[x]
                block[z] = ((mixed << turn) | (mixed >> (32 - turn))) & 0xFFFFFFFF

        for _ in range(10):
            quarter(0, 4, 8, 12)
            quarter(1, 5, 9, 13)
            quarter(2, 6, 10, 14)
            quarter(3, 7, 11, 15)
            quarter(0, 5, 10, 15)
            quarter(1, 6, 11, 12)
            quarter(2, 7, 8, 13)
            quarter(3, 4, 9, 14)
        made += [(one + other) & 0xFFFFFFFF for one, other in zip(block, state)]
        counter += 1
    return made[:count]


def calls_of(number, account):
    """The numbers 0 to 9 that choose an account's calls."""
    key = hmac.new(struct.pack(">Q", number), b"load" + bytes([account]), hashlib.sha256).digest()
    return [word % 10 for word in words(key, 40)]


class Account:
    """The plain machine of one account, as far as a load goes: one session, a password and a PIN, one file."""

    def __init__(self):
        self.moment = START
        self.ends = START + SESSION
        self.mounted = False
        self.file = False
        self.wrong = 0
        self.last = 0
        self.cleared = 0

    def live(self):
        return self.moment < self.ends

    def proved(self):
        self.ends = max(self.ends, self.moment + SESSION)

    def wait(self):
        """`locked`, the moment from which a try may come, or None where it may come now."""
        reached = [pair for pair in SCHEDULE if pair[0] <= self.wrong]
        if not reached:
            return None
        if reached[-1][1] is None:
            return "locked"
        until = self.last + reached[-1][1]
        return until if self.moment < until else None

    def try_pin(self, right):
        if not self.live():
            return "other"
        wait = self.wait()
        if wait == "locked":
            return "locked"
        if wait is not None:
            return "delayed"
        if right:
            self.wrong, self.last = 0, 0
            self.proved()
            return "ok"
        self.wrong, self.last = self.wrong + 1, self.moment
        return "wrong"

    def try_password(self, right):
        if not self.live():
            return "other"
        if not right:
            return "wrong"
        self.proved()
        # a turn of its own clears the PIN's count; it isn't counted here
        if self.wrong:
            self.wrong, self.last = 0, 0
            self.cleared += 1
        return "ok"

    def call(self, choice):
        if choice == 0:
            return self.try_pin(False)
        if choice == 1:
            return self.try_pin(True)
        if choice == 2:
            return self.try_password(True)
        if choice == 3:
            return self.try_password(False)
        if choice == 4:
            if not self.live() or self.mounted:
                return "other"
            self.mounted = True
            return "ok"
        if choice == 5:
            if not self.mounted:
                return "other"
            self.mounted = False
            return "ok"
        if choice == 6:
            if not self.mounted:
                return "other"
            self.file = True
            return "ok"
        if choice == 7:
            return "ok" if self.mounted and self.file else "other"
        if choice == 8:
            if not self.live():
                return "other"
            self.wrong, self.last = 0, 0
            return "ok"
        return "ok"


def load(number):
    """Each account's counts, and how often a count was cleared by a password."""
    rows, cleared = [], 0
    for place in range(48):
        account = Account()
        # create, start_session, and the two factors
        counts = {"ok": 4, "wrong": 0, "delayed": 0, "locked": 0, "other": 0}
        for choice in calls_of(number, place):
            account.moment += 5
            counts[account.call(choice)] += 1
        rows.append(counts)
        cleared += account.cleared
    return rows, cleared


def main(words_given):
    if len(words_given) == 1:
        rows, _ = load(int(words_given[0]))
        for place, counts in enumerate(rows):
            print(f"u{place:02} " + " ".join(f"{name} {count}" for name, count in counts.items()))
        print("total", sum(sum(counts.values()) for counts in rows))
        return 0
    if len(words_given) == 3 and words_given[0] == "--find":
        for number in range(int(words_given[1]), int(words_given[2]) + 1):
            rows, cleared = load(number)
            delayed = sum(counts["delayed"] for counts in rows)
            locked = sum(counts["locked"] for counts in rows)
            if delayed and cleared:
                print(f"{number}: delayed {delayed}, locked {locked}, cleared {cleared}")
        return 0
    print(__doc__, file=sys.stderr)
    return 2


if __name__ == "__main__":
    sys.exit(main(sys.argv[1:]))
