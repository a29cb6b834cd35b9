"""A long play of four sessions over the built-in table, from a number.

    load.py lines N      the play's lines
    load.py replies N    what a model of a queue table answers to them
    load.py counts N     what comes of them: rows inserted, looks that found one and that found none, rows ended and
                         given back, commands refused by the mode, rows left

The model knows nothing of q4. It keeps the numbers of the rows that nobody owns in two heaps, of all rows and of those
whose number is 5 or more, and passes over those that are owned or gone.
"""

import heapq
import sys

SESSIONS = 4
REFUSED = "err\t31\tnot in owner mode"


def steps(count):
    """For each step the session and what it does, by a generator of pseudorandom numbers."""
    x = 1
    for step in range(1, count + 1):
        x = (x * 1103515245 + 12345) % 2**31
        r = x // 65536
        yield step, r % SESSIONS + 1, r // 4 % 8, r // 32 % 10


def command(step, act, prio):
    if act <= 2:
        return f"insert\tjobs\t{prio}\t{step}"
    if act == 3:
        return "abort"
    if act in (4, 6):
        return "end"
    return "wait\tjobs:prio>=5\tjobs\t=0"


class Table:
    def __init__(self):
        self.prios = {}
        self.owned = set()
        self.all = []
        self.high = []
        self.next = 1

    def offer(self, number):
        heapq.heappush(self.all, number)
        if self.prios[number] >= 5:
            heapq.heappush(self.high, number)

    def insert(self, prio):
        number = self.next
        self.next += 1
        self.prios[number] = prio
        self.offer(number)
        return number

    def oldest(self, heap):
        while heap and (heap[0] not in self.prios or heap[0] in self.owned):
            heapq.heappop(heap)
        return heap[0] if heap else None


class Play:
    """The modes of the sessions: out of owner mode, or in it with a row's number or with 0 for none."""

    def __init__(self):
        self.table = Table()
        self.modes = [None] * (SESSIONS + 1)
        self.counts = dict.fromkeys(["inserted", "found", "none", "ended", "returned", "refused"], 0)

    def leave(self, session, ends):
        number = self.modes[session]
        self.modes[session] = None
        if not number:
            return
        self.table.owned.discard(number)
        if ends:
            del self.table.prios[number]
        else:
            self.table.offer(number)
        self.counts["ended" if ends else "returned"] += 1

    def look(self, session):
        for place, heap in enumerate([self.table.high, self.table.all], 1):
            number = self.table.oldest(heap)
            if number is not None:
                self.table.owned.add(number)
                self.modes[session] = number
                self.counts["found"] += 1
                return f"ok\t{place}"
        self.modes[session] = 0
        self.counts["none"] += 1
        return "ok\t0"

    def answer(self, session, act, prio):
        if act <= 2:
            self.counts["inserted"] += 1
            return f"ok\t{self.table.insert(prio)}"
        if act in (5, 7):
            if self.modes[session] is not None:
                self.leave(session, ends=True)
            return self.look(session)
        if self.modes[session] is None:
            self.counts["refused"] += 1
            return REFUSED
        self.leave(session, ends=act != 3)
        return "ok"


def main():
    what, count = sys.argv[1], int(sys.argv[2])
    play = Play()
    out = []
    for step, session, act, prio in steps(count):
        reply = play.answer(session, act, prio)
        out.append(f"{session} {command(step, act, prio) if what == 'lines' else reply}\n")
    if what == "counts":
        for session in range(1, SESSIONS + 1):
            play.leave(session, ends=False)
        left = len(play.table.prios)
        out = [f"{name} {number}\n" for name, number in [*play.counts.items(), ("left", left)]]
    sys.stdout.write("".join(out))


main()
