#!/usr/bin/env python3
"""Goes over all interleavings of threads that take one lock, which is let go of by a store.

  locks.py            checks the agreement, whether the code has its steps, and each fault
  locks.py NAME ...   checks the agreement with these faults alone

The model is of rust/src/shared/lock.rs: threads, each of which takes the lock, uses what is behind
it and lets it go, some times. What is checked of each state that can be reached: no two threads use
what is behind the lock at once; a thread that said that it waits before the lock was let go of is
woken; somebody can go on until all are done; and then the lock is free, and nobody waits.

Nobody may wake a thread that said so later: a store reaches memory some time after it was made, and
a look that stands behind it may come first. Such a thread sleeps until its time is over, in the
model once nobody else can go on.

Trusted of x86-64: stores of a thread reach memory in their order, and an exchange finds all earlier
stores of its thread in memory. Trusted of the standard library: its mutex, and a condition
variable, which lets the mutex go and sleeps in one step.

A fault is one wrong step. Each must be found.
"""

from pathlib import Path
from typing import NamedTuple, Optional

import code_steps
from code_steps import (
    as_meant,
    explored,
    replaced,
    stands_as_modelled,
    try_faults,
    with_arrival,
)

FAULTS = {
    "takes_in_two_steps": "a thread looks whether the lock is free and then takes it",
    "lets_go_too_early": "the lock is let go of before its use is over: the release is relaxed",
    "looks_at_nobody": "who lets the lock go does not look whether a thread waits",
    "looks_first": "who lets the lock go looks whether a thread waits before it does so",
    "wakes_without_bed": "who lets the lock go wakes a thread without having had the bed",
    "asks_without_bed": "a thread asks for the lock the last time before it has the bed",
    "sleeps_without_asking": "a thread that has the bed sleeps without asking again",
    "waits_silently": "a thread does not say that it waits",
    "says_so_for_ever": "a thread that has the lock does not take back that it waits",
    "sleeps_without_end": "a thread sleeps until it is woken",
}

# What stands in the code for the steps of the model: by functions, the words in their order.
SOURCES = {
    "lock.rs": {
        "pub fn lock(": ["!self.take()", "self.wait()", "Held {"],
        "fn take(": ["!self.is_held.swap(true, Ordering::Acquire)"],
        "fn wait(": [
            "if self.take()",
            "self.waiting.fetch_add(1",
            "self.bed()",
            "while !self.take()",
            "freed.wait_timeout(bed, SLEEP)",
            "drop(bed)",
            "self.waiting.fetch_sub(1",
        ],
        "fn let_go(": [
            "is_held.store(false, Ordering::Release)",
            "self.waiting.load(Ordering::Relaxed) > 0",
            "self.wake()",
        ],
        "fn wake(": ["drop(self.bed())", "freed.notify_one()"],
        "fn drop(": ["self.lock.let_go()"],
    },
}

# How often these stand in lock.rs: nothing else takes the lock, lets it go or says that it waits.
CHANGES = {".swap(": 1, ".store(": 1, "fetch_add(": 1, "fetch_sub(": 1, ".wait_timeout(": 1}

# The places of memory.
HELD, WAITING, BED = range(3)
THREADS, TIMES = 3, 2


class Thread(NamedTuple):
    """Where a thread is in its steps, and how often it takes the lock still."""

    at: str
    left: int


class State(NamedTuple):
    """What memory has, the stores of each thread on their way there, and who does what."""

    memory: tuple
    threads: tuple
    stores: tuple
    users: frozenset
    asleep: frozenset
    # Who said that it waits since the lock was last let go of.
    late: frozenset
    wrong: Optional[str] = None


class View(code_steps.BufferedView):
    """A state, with the words of this model."""

    def exchanged(self, place, change):
        """An exchange, which finds all that its thread has stored in memory."""
        view = self.flushed(self.thread)
        memory = view.state.memory
        return view.having(memory=replaced(memory, place, change(memory[place])))

    def taken(self, place):
        """With the lock or the bed, or None while another thread has it."""
        view = self.exchanged(place, lambda held: held)
        return None if view.state.memory[place] else view.exchanged(place, lambda _: 1)

    def without_bed(self):
        return self.exchanged(BED, lambda _: 0)

    def waits(self, more):
        return self.exchanged(WAITING, lambda waiting: waiting + more)


class Program:
    """The steps of a thread, by their names. Each gives the views that may come next."""

    def __init__(self, fault):
        self.fault = fault
        # Whether a thread asks for the lock while it has the bed.
        self.asks_in_bed = fault not in ("asks_without_bed", "sleeps_without_asking")

    def begin(self, view):
        if view.me.left == 0:
            return [view.to("end")]
        return [view.to("take", left=view.me.left - 1)]

    def take(self, view):
        return self.taking(view, "use", "say")

    def taking(self, view, then, otherwise):
        """An exchange by which the lock is taken if it is free."""
        taken = view.taken(HELD)
        if taken and self.fault == "takes_in_two_steps":
            return [view.to(f"{view.me.at}_late")]
        return [taken.to(then) if taken else view.exchanged(HELD, lambda held: held).to(otherwise)]

    def take_late(self, view):
        return [view.exchanged(HELD, lambda _: 1).to("use")]

    def ask_late(self, view):
        return [view.exchanged(HELD, lambda _: 1).to("rise")]

    def say(self, view):
        if self.fault != "waits_silently":
            view = view.waits(1).having(late=view.state.late | {view.thread})
        return [view.to("ask" if self.fault == "asks_without_bed" else "lie_down")]

    def lie_down(self, view):
        view = view.taken(BED)
        return [view.to("ask" if self.asks_in_bed else "sleep")] if view else []

    def ask(self, view):
        then = "lie_down" if self.fault == "asks_without_bed" else "sleep"
        return self.taking(view, "rise", then)

    def sleep(self, view):
        asleep = view.state.asleep | {view.thread}
        return [view.without_bed().having(asleep=asleep).to("asleep")]

    def asleep(self, view):
        """Goes on once it was woken."""
        if view.thread in view.state.asleep:
            return []
        return [view.to("lie_down" if self.asks_in_bed else "ask")]

    def overslept(self, view):
        """Goes on since its time is over, while nobody else can go on."""
        if view.thread not in view.state.late:
            view = view.having(wrong="a thread that said that it waits is not woken")
        return [view.having(asleep=view.state.asleep - {view.thread})]

    def rise(self, view):
        return [(view.without_bed() if self.asks_in_bed else view).to("take_back")]

    def take_back(self, view):
        if self.fault not in ("waits_silently", "says_so_for_ever"):
            view = view.waits(-1)
        return [view.to("use")]

    def use(self, view):
        return [view.having(users=view.state.users | {view.thread}).to("use_over")]

    def use_over(self, view):
        if self.fault == "lets_go_too_early":
            return [self.let_go_by_store(view).to("use_late")]
        view = self.is_done(view)
        return [view.to("look" if self.fault == "looks_first" else "let_go")]

    def use_late(self, view):
        return [self.is_done(view).to("look")]

    def is_done(self, view):
        return view.having(users=view.state.users - {view.thread})

    def let_go_by_store(self, view):
        return view.write(HELD, 0).having(late=frozenset())

    def let_go(self, view):
        after = "begin" if self.fault in ("looks_at_nobody", "looks_first") else "look"
        return [self.let_go_by_store(view).to(after)]

    def look(self, view):
        if view.state.memory[WAITING] == 0:
            return [view.to("let_go" if self.fault == "looks_first" else "begin")]
        if self.fault == "looks_first":
            view = self.let_go_by_store(view)
        return [view.to("wake" if self.fault == "wakes_without_bed" else "wake_bed")]

    def wake_bed(self, view):
        view = view.taken(BED)
        return [view.to("leave_bed")] if view else []

    def leave_bed(self, view):
        return [view.without_bed().to("wake")]

    def wake(self, view):
        asleep = view.state.asleep
        woken = [view.having(asleep=asleep - {thread}).to("begin") for thread in asleep]
        return woken or [view.to("begin")]


def first_state():
    threads = (Thread("begin", TIMES),) * THREADS
    none = frozenset()
    return State((0, 0, 0), threads, ((),) * THREADS, none, none, none)


def successors(state, program):
    """The states that may come next: a thread's step, or its oldest store reaches memory."""
    nexts = []
    for thread, stores in enumerate(state.stores):
        if stores:
            nexts.append(with_arrival(state, thread))
    for thread, (at, _) in enumerate(state.threads):
        if at != "end":
            nexts += [view.state for view in getattr(program, at)(View(state, thread))]
    if not nexts and program.fault != "sleeps_without_end":
        for thread in state.asleep:
            nexts += [view.state for view in program.overslept(View(state, thread))]
    return nexts


def wrong_with(state):
    """What may not be, or None."""
    if len(state.users) > 1:
        return "two use what is behind the lock at once"
    return state.wrong


def wrong_at_end(state):
    """What may not be where nobody goes on, or None."""
    if any(thread.at != "end" for thread in state.threads):
        return "nobody can go on"
    return "the lock is not free, or waited for" if any(state.memory) else None


def is_as_meant(fault):
    """Explores with the fault, or with none, and says what came of it."""
    program = Program(fault)
    found = explored(
        first_state(), lambda state: successors(state, program), wrong_with, wrong_at_end
    )
    return as_meant(fault, *found)


def main():
    code = Path(__file__).resolve().parent.parent / "src" / "shared"
    try_faults(FAULTS, is_as_meant, stands_as_modelled(code, SOURCES, "lock.rs", CHANGES))


if __name__ == "__main__":
    main()
