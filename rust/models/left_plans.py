#!/usr/bin/env python3
"""Goes over all interleavings by which a plan is closed that an arena left open as it was dropped.

  left_plans.py            checks the agreement, whether the code has its steps, and each fault
  left_plans.py NAME ...   checks the agreement with these faults alone

The model is of rust/src/arena/share.rs: one thread drops the arena in a session of its own, and
leaves the steward with its open plan. Whoever leaves a session closes the plan, unless another
thread is at it. A close needs the shards of all sessions, so it waits for those of others; in a
session it would wait for its own, and answers that it is busy. Each step is one access to memory
that others see, or the close. What is checked of each state that can be reached: a plan is closed
once; somebody can go on until all are done; and then the plan is closed.

Nothing is asked of the memory: a thread that has not stored the word that a plan was left, nor seen
it, may miss it at each look. Trusted of the system: a mutex has one owner at a time.

A fault is one wrong step. Each must be found, but those that are named as harmless, with why.
"""

from pathlib import Path
from typing import NamedTuple, Optional

from code_steps import View, as_meant, explored, stands_as_modelled, try_faults

FAULTS = {
    "no_word": "the arena does not say that it has left a plan",
    "word_first": "the arena says that it has left a plan before it does",
    "no_look": "who leaves a session does not look whether a plan was left",
    "looks_first": "a thread looks for the plan before it leaves its session",
    "waits_for_lock": "a thread waits for another that is at the plan",
    "waits_in_session": "a close waits for all sessions, also if its thread is in one",
    "no_put_back": "a thread whose close is busy keeps the plan from others",
    "no_word_after_busy": "a thread whose close is busy says that no plan is left",
    "keeps_lock": "a thread whose close is busy keeps the lock",
}

HARMLESS = {
    "word_first": "who looks too early finds no plan, and the thread that leaves it looks later",
}

# What stands in the code for the steps of the model: by functions, the words in their order.
SOURCES = {
    "arena/share.rs": {
        "pub fn leave_plan": [".left", ".lock()", "= Some(steward)", "has_left.store(true"],
        "pub fn close_left_plan": ["if self.shared.has_left.load(", "close_plan_of_left()"],
        "fn close_plan_of_left": [
            "let Ok(mut left) = self.shared.left.try_lock() else { return; };",
            "if let Some(steward) = left.take()",
            "self.at_steward(",
            "teurlaks_steward_close",
            "if status == raw::BUSY",
            "*left = Some(steward)",
            "else",
            "has_left.store(false",
        ],
        "fn waits_in_vain": ["if !inside::is_in_session()", "return false"],
    },
    "arena/seat.rs": {
        "pub(super) fn pause(": ["teurlaks_seat_pause", "end_inside()", "close_left_plan()"],
    },
    "arena.rs": {"fn drop(&mut self)": ["close() == raw::BUSY", "leave_plan("]},
}

# How often these stand there: nothing else changes what threads see.
CHANGES = {"has_left.store(": 2, ".left.try_lock()": 1, ".left.lock()": 1, "left.take()": 1}

FREE = -1


class Thread(NamedTuple):
    """Where a thread is in its steps, and in how many sessions."""

    at: str
    sessions: int
    # Whether it has stored or seen the word that a plan was left.
    knows: bool = False


class State(NamedTuple):
    """All threads, of which the first drops the arena, and what memory has."""

    threads: tuple = (Thread("leave", 1), Thread("end_session", 2), Thread("end_session", 1))
    lock: int = FREE
    is_there: bool = False
    has_left: bool = False
    closed: int = 0
    wrong: Optional[str] = None


class Program:
    """The steps, by their names. Each gives the views that may come next."""

    def __init__(self, fault):
        self.fault = fault

    def leave(self, view):
        """The drop of the arena, whose close is busy."""
        if self.fault == "word_first":
            view = view.having(has_left=True).with_me(knows=True)
        if view.state.lock != FREE:
            return []
        return [view.having(is_there=True).to("say")]

    def say(self, view):
        if self.fault == "no_word":
            return [view.to("end_session")]
        return [view.having(has_left=True).to("end_session", knows=True)]

    def end_session(self, view):
        if self.fault == "looks_first":
            return [view.to("look")]
        return [self.without_session(view).to("look")]

    def without_session(self, view):
        return view.with_me(sessions=view.me.sessions - 1)

    def look(self, view):
        if self.fault == "no_look":
            return [self.done(view)]
        seen = [self.done(view)] if not (view.state.has_left and view.me.knows) else []
        if view.state.has_left:
            seen.append(view.to("try_lock", knows=True))
        return seen

    def try_lock(self, view):
        if view.state.lock != FREE:
            return [] if self.fault == "waits_for_lock" else [self.done(view)]
        locked = view.having(lock=view.thread)
        if not view.state.is_there:
            return [locked.to("let_go")]
        return [locked.having(is_there=False).to("close")]

    def close(self, view):
        """Closes, if no thread is in a session; else waits, or is busy in a session of its own."""
        if all(thread.sessions == 0 for thread in view.state.threads):
            return [view.having(closed=view.state.closed + 1).to("say_closed")]
        if view.me.sessions > 0 and self.fault != "waits_in_session":
            return [view.to("put_back")]
        return []

    def say_closed(self, view):
        return [view.having(has_left=False).to("let_go")]

    def put_back(self, view):
        if self.fault != "no_put_back":
            view = view.having(is_there=True)
        if self.fault == "no_word_after_busy":
            view = view.having(has_left=False)
        return [self.done(view) if self.fault == "keeps_lock" else view.to("let_go")]

    def let_go(self, view):
        return [self.done(view.having(lock=FREE))]

    def done(self, view):
        """Back in its other session, or at its end."""
        if self.fault == "looks_first":
            view = self.without_session(view)
        return view.to("end_session" if view.me.sessions > 0 else "end")


def wrong_with(state):
    """What may not be, or None."""
    return "a plan is closed twice" if state.closed > 1 else None


def wrong_at_end(state):
    """What may not be if nobody can go on, or None."""
    if any(thread.at != "end" for thread in state.threads):
        return "nobody can go on"
    return None if state.closed else "all are done, and the plan is open"


def is_as_meant(fault):
    """Explores the model with the fault, or with none, and says what came of it."""
    program = Program(fault)

    def successors(state):
        for number, thread in enumerate(state.threads):
            if thread.at != "end":
                for view in getattr(program, thread.at)(View(state, number)):
                    yield view.state

    return as_meant(fault, *explored(State(), successors, wrong_with, wrong_at_end), HARMLESS)


def main():
    code = Path(__file__).resolve().parent.parent / "src"
    try_faults(FAULTS, is_as_meant, stands_as_modelled(code, SOURCES, "arena/share.rs", CHANGES))


if __name__ == "__main__":
    main()
