#!/usr/bin/env python3
"""Goes over all interleavings by which a compaction in the background begins, works and ends.

  background.py            checks the agreement, whether the code has its steps, and each fault
  background.py NAME ...   checks the agreement with these faults alone

The model is of rust/src/background.rs: the guard, whose drop ends the thread, and the thread,
which sleeps, looks, and compacts in parts. Each step is one access to memory that both see, or a
wait. What is checked of each state that can be reached: no part begins once the drop of the guard
has returned, and at most one does once it has begun; then no compaction is under way; and the drop
returns without a wait for the interval, for no time passes here once it has begun.

Trusted of the system: a mutex has one owner at a time, a wait on a condition lets its mutex go and
sleeps in one step, and wakes by a notice that comes later, or for no reason.

A fault is one wrong step. Each must be found, but those that are named as harmless, with why.
"""

from pathlib import Path
from typing import NamedTuple, Optional

from code_steps import as_meant, explored, stands_as_modelled, try_faults

FAULTS = {
    "ends_without_lock": "the guard says that it ends without the lock",
    "notice_before_word": "the guard notifies the thread before it says that it ends",
    "no_notice": "the guard does not notify the thread",
    "sleeps_without_look": "the thread does not look whether it is to end before it sleeps",
    "sleeps_on": "a thread that wakes sleeps on, without a look whether it is to end",
    "sleeps_with_lock": "the thread keeps the lock while it sleeps",
    "no_look_between_parts": "a compaction goes on to its end, whether it is to end or not",
    "no_give_up": "the thread ends in the midst of a compaction",
    "gives_up_first": "the thread gives a compaction up, and then takes its last part",
    "no_join": "the drop of the guard does not wait for the thread",
    "wakes_as_if_not_over": "a thread that wakes does not say that it is to end",
}

HARMLESS = {
    "wakes_as_if_not_over": "the thread looks again before each part, and before it sleeps",
}

# What stands in the code for the steps of the model: by functions, the words in their order.
SOURCES = {
    "background.rs": {
        "fn sleep(": [
            "is_over.lock()",
            "wait_timeout_while(is_over, interval, |is_over| !*is_over)",
            "*slept",
        ],
        "fn is_over(": ["*self.is_over.lock()"],
        "fn run(": [
            "while !shared.sleep(interval)",
            "compact(policy, compacts, shared)",
            "compacts.give_up()",
        ],
        "fn compact(": [
            "while !shared.is_over()",
            "compact_part(policy.budget)?",
            "if !done.more",
            "break",
        ],
        "impl Drop for Background": [
            "is_over.lock()",
            "= true",
            "notify_all()",
            "JoinHandle::join",
        ],
    },
}

# How often these stand there: nothing else changes what both see.
CHANGES = {"is_over.lock()": 3, "notify_all()": 1, "compact_part(": 2, "give_up()": 1}

FREE, GUARD, THREAD = 0, 1, 2
# How many compactions the thread begins, and how many parts one has.
COMPACTIONS, PARTS = 2, 3


class State(NamedTuple):
    """Where both are in their steps, and what memory has."""

    guard: str = "alive"
    thread: str = "sleep"
    lock: int = FREE
    is_over: bool = False
    # Whether the thread has a notice that it has not seen.
    is_notified: bool = False
    # What the thread saw last of `is_over`.
    seen: bool = False
    begun: int = 0
    # How many parts are left of the compaction that is under way, or 0.
    parts: int = 0
    # How many parts began once the guard was being dropped.
    late: int = 0
    wrong: Optional[str] = None

    def having(self, **changes):
        return self._replace(**changes)


class Guard:
    """The steps of the guard, by their names. Each gives the states that may come next."""

    def __init__(self, fault):
        self.fault = fault

    def alive(self, state):
        if self.fault == "notice_before_word":
            return [self.noticed(state).having(guard="lock")]
        return [state.having(guard="lock")]

    def lock(self, state):
        if self.fault == "ends_without_lock":
            return [state.having(guard="notify", is_over=True)]
        return [state.having(guard="say", lock=GUARD)] if state.lock == FREE else []

    def say(self, state):
        return [state.having(guard="notify", is_over=True, lock=FREE)]

    def notify(self, state):
        notifies = self.fault not in ("no_notice", "notice_before_word")
        return [(self.noticed(state) if notifies else state).having(guard="join")]

    def noticed(self, state):
        """With a notice, if the thread sleeps; else nobody gets it."""
        return state.having(is_notified=True) if state.thread == "asleep" else state

    def join(self, state):
        if state.thread == "end" or self.fault == "no_join":
            return [state.having(guard="end")]
        return []


class Thread:
    """The steps of the thread."""

    def __init__(self, fault):
        self.fault = fault

    def sleep(self, state):
        return [state.having(thread="sleep_look", lock=THREAD)] if state.lock == FREE else []

    def sleep_look(self, state):
        if state.is_over and self.fault != "sleeps_without_look":
            return [state.having(thread="awake", lock=FREE, seen=True)]
        return [state.having(thread="sleep_wait")]

    def sleep_wait(self, state):
        keeps = self.fault == "sleeps_with_lock"
        return [state.having(thread="asleep", lock=state.lock if keeps else FREE)]

    def asleep(self, state):
        """Wakes by a notice, or as time passes, which it does until the guard is dropped."""
        if not state.is_notified and state.guard != "alive":
            return []
        if state.lock not in (FREE, THREAD):
            return []
        woken = state.having(lock=THREAD, is_notified=False)
        if state.is_notified and self.fault == "sleeps_on":
            return [woken.having(thread="asleep", lock=FREE)]
        return [woken.having(thread="woken")]

    def woken(self, state):
        says = state.is_over and self.fault != "wakes_as_if_not_over"
        return [state.having(thread="awake", lock=FREE, seen=says)]

    def awake(self, state):
        if state.seen:
            return [state.having(thread="give_up")]
        if state.begun == COMPACTIONS:
            return [state.having(thread="sleep")]
        began = state.having(thread="look", begun=state.begun + 1)
        # A compaction begins, or does not pay.
        return [began, state.having(thread="sleep", begun=state.begun + 1)]

    def look(self, state):
        """Looks under the lock whether it is to end, before a part."""
        if state.lock != FREE:
            return []
        if state.is_over and self.fault != "no_look_between_parts":
            return [state.having(thread="sleep")]
        return [state.having(thread="part")]

    def part(self, state):
        if state.guard == "end":
            state = state.having(wrong="a part begins once the guard is gone")
        late = state.late + state.is_over
        left = state.parts or PARTS
        taken = state.having(parts=left - 1, late=late)
        # Memory may be refused, which leaves the compaction where it is.
        refused = state.having(thread="sleep", parts=left, late=late)
        return [taken.having(thread="look" if left > 1 else "sleep"), refused]

    def give_up(self, state):
        if self.fault == "no_give_up":
            return [state.having(thread="end")]
        given_up = state.having(parts=0)
        if self.fault == "gives_up_first" and state.parts:
            return [given_up.having(parts=PARTS - 1, thread="end", late=state.late + 1)]
        return [given_up.having(thread="end")]


def wrong_with(state):
    """What may not be, or None."""
    if state.wrong:
        return state.wrong
    if state.late > 1:
        return "parts go on though the guard is being dropped"
    if state.guard == "end" and state.parts:
        return "a compaction is under way once the guard is gone"
    return None


def is_as_meant(fault):
    """Explores the model with the fault, or with none, and says what came of it."""
    programs = {"guard": Guard(fault), "thread": Thread(fault)}

    def successors(state):
        for name, program in programs.items():
            at = getattr(state, name)
            if at != "end":
                yield from getattr(program, at)(state)

    def wrong_at_end(state):
        return None if (state.guard, state.thread) == ("end", "end") else "nobody can go on"

    return as_meant(fault, *explored(State(), successors, wrong_with, wrong_at_end), HARMLESS)


def main():
    code = Path(__file__).resolve().parent.parent / "src"
    try_faults(FAULTS, is_as_meant, stands_as_modelled(code, SOURCES, "background.rs", CHANGES))


if __name__ == "__main__":
    main()
