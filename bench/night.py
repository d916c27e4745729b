#!/usr/bin/env python3
# SPDX-License-Identifier: Apache-2.0
"""Simulates a night's work of many pages on many machines with one file server: night.py [NAME=NUMBER ..].

  pages=100000 machines=50 processors=16   how much there is to do, and by how many
  seconds=16 spread=0.5                    of a processor a page, and how much they differ: the deviation of the logarithm
  megabytes=345 server=1200                what a page reads and writes, and what the server moves in a second
  failing=0.002 slow=0.0005 limit=600      the share of pages that fail when they are looked at, and of those that never end
  lost=1 hour=2                            so many machines are lost after so many hours

A page is reckoned by its processor first and then moves its bytes, the server being shared among all that move theirs. Pages are taken
in their order. What a lost machine was at is done again after all others, as by farm --again. Tells when all is done, how busy
processors and server were, and what failed.
"""
import heapq
import math
import random
import sys

USUAL = {"pages": 100_000, "machines": 50, "processors": 16, "seconds": 16, "spread": 0.5, "megabytes": 345, "server": 1200,
         "failing": 0.002, "slow": 0.0005, "limit": 600, "lost": 1, "hour": 2}
LOOK_SECONDS, SEED = 1.0, 1


class Night:
    """The pages, the slots that do them, and the server."""

    def __init__(self, plan):
        self.plan, self.chance = plan, random.Random(SEED)
        self.waiting = list(range(int(plan["pages"])))[::-1]
        self.again, self.events, self.moving, self.now = [], [], [], 0.0
        # What the server has moved for each that moves all the time, and how long it was busy.
        self.share, self.busy, self.work = 0.0, 0.0, 0.0
        self.done = self.failed = self.stopped = self.repeated = 0
        self.dead = set()

    def kind_and_seconds(self, page):
        plan, one = self.plan, random.Random(page * 1_000_003 + SEED)
        drawn = one.random()
        if drawn < plan["failing"]:
            return "failed", LOOK_SECONDS
        if drawn < plan["failing"] + plan["slow"]:
            return "stopped", plan["limit"]
        # The mean stays what it is, whatever the spread.
        return "done", plan["seconds"] * math.exp(one.gauss(-plan["spread"] ** 2 / 2, plan["spread"]))

    def begin(self, slot):
        """A slot takes the next page."""
        if slot // int(self.plan["processors"]) in self.dead:
            return
        if not self.waiting and self.again:
            self.waiting, self.again = self.again[::-1], []
        if self.waiting:
            page = self.waiting.pop()
            kind, seconds = self.kind_and_seconds(page)
            heapq.heappush(self.events, (self.now + seconds, slot, page, kind))

    def advance(self, to):
        if self.moving:
            self.share += (to - self.now) * self.plan["server"] / len(self.moving)
            self.busy += to - self.now
        self.now = to

    def next_move(self):
        """When the next page will have moved its bytes."""
        if not self.moving:
            return math.inf
        return self.now + max(0.0, self.moving[0][0] - self.share) * len(self.moving) / self.plan["server"]

    def lose(self):
        """Machines are lost, with what they are at."""
        self.dead = set(range(int(self.plan["lost"])))
        for found in (self.events, self.moving):
            gone = [entry for entry in found if entry[1] // int(self.plan["processors"]) in self.dead]
            self.again += [entry[2] for entry in gone]
            self.repeated += len(gone)
            found[:] = [entry for entry in found if entry[1] // int(self.plan["processors"]) not in self.dead]
            heapq.heapify(found)

    def run(self):
        slots = int(self.plan["machines"] * self.plan["processors"])
        for slot in range(slots):
            self.begin(slot)
        losing = self.plan["hour"] * 3600 if self.plan["lost"] else math.inf
        while self.events or self.moving:
            reckoned, moved = self.events[0][0] if self.events else math.inf, self.next_move()
            if losing <= min(reckoned, moved):
                self.advance(losing)
                self.lose()
                losing = math.inf
            elif reckoned <= moved:
                at, slot, page, kind = heapq.heappop(self.events)
                self.advance(at)
                self.reckoned(slot, page, kind)
            else:
                self.advance(moved)
                _, slot, _ = heapq.heappop(self.moving)
                self.done += 1
                self.begin(slot)

    def reckoned(self, slot, page, kind):
        if kind == "done":
            self.work += self.kind_and_seconds(page)[1]
            heapq.heappush(self.moving, (self.share + self.plan["megabytes"], slot, page))
            return
        self.failed += kind == "failed"
        self.stopped += kind == "stopped"
        self.begin(slot)


def main():
    plan = dict(USUAL)
    for word in sys.argv[1:]:
        name, equals, value = word.partition("=")
        if name not in plan or not equals:
            sys.exit(__doc__)
        plan[name] = float(value)
    night = Night(plan)
    night.run()
    slots = plan["machines"] * plan["processors"]
    print(f"{night.now / 3600:.2f} hours, {night.done} pages done, {night.failed} failed, {night.stopped} stopped by the limit, "
          f"{night.repeated} done again; processors {100 * night.work / slots / night.now:.0f}% busy, server "
          f"{100 * night.busy / night.now:.0f}%, {night.done / slots / night.now * 3600:.0f} pages an hour a processor")


main()
