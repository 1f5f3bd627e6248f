#!/usr/bin/env python3
"""Goes over all interleavings of the agreement by which a seat keeps its shard.

  kept_shards.py            checks the agreement, whether the code has its steps, and each fault
  kept_shards.py NAME ...   checks the agreement with these faults alone

The model is of one lane of rust/src/arena/lane.rs: its owner, and takers, each of which takes the
shard back. Who takes from several lanes has one lock at a time. So for one lane the others are but
a delay between two steps, which an interleaving is too. What is checked of each state that can be
reached: no two threads use the handle at once, nobody uses it once it is dropped, and somebody can
go on until all are done.

Trusted of x86-64: stores of a thread reach memory in their order, some time after they were made,
and the thread sees its own at once. An exchange, as by which a lock is taken, finds all earlier
stores of its thread in memory.

Trusted of Linux's membarrier(2), with PRIVATE_EXPEDITED: when it returns, each thread of the
process has been at some moment since it was called by which its earlier stores are in memory, and
after which its later loads are made.

Trusted of the compiler: a release comes after what stands before it, an acquire before what stands
behind it, and a light fence keeps both.

A fault is one wrong step. Each must be found, but those that are named as harmless, with why.
"""

from pathlib import Path
from typing import NamedTuple

import code_steps
from code_steps import (
    as_meant,
    explored,
    replaced,
    stands_as_modelled,
    try_faults,
    with_arrival,
)

OPEN, KEPT, WANTED = 0, 1, 2
FREE = -1
OWNER = 0
# The places of memory.
IN_CALL, DOOR, KEEPING, LOCK = range(4)
# What the owner does between two calls, how many takers there are, and how often each takes.
CALLS, TAKERS, TAKES = 3, 2, 1

FAULTS = {
    "no_heavy_fence": "a taker has no membarrier",
    "no_full_fence": "a taker's own stores may reach memory once the owner was fenced",
    "fence_before_want": "a taker has its fence before it says that the shard is wanted",
    "look_before_say": "the owner looks at the door before it says that it is in a call",
    "no_wait": "a taker does not wait for the owner's call",
    "wanted_passed_over": "the owner makes its call though the shard is wanted",
    "over_too_early": "the owner says that its call is over before it is: its release is relaxed",
    "open_too_early": "a taker opens the door before its pause is done: its release is relaxed",
    "owner_opens_too_early": "the owner opens the door and unlocks it before its pause is done",
    "kept_too_early": "the owner closes the door and unlocks it before the session has begun",
    "owner_opens_without_lock": "the owner opens its door without the lock",
    "keeps_without_lock": "the owner keeps its shard without the lock",
    "takes_without_lock": "a taker waits and opens the door without the lock",
    "no_second_look": "a taker does not look at the door again under its second lock",
    "keeping_not_compared": "a taker that finds the door closed does not ask in which keeping",
    "dropped_while_kept": "a seat is dropped without letting go of its shard",
}

HARMLESS = {
    "owner_opens_too_early": "while the door is open the handle is the owner's alone, also for the "
    "pause that is still to come; it is written as a taker writes it",
    "keeps_without_lock": "while the door is open no taker changes it or uses the handle, so the "
    "lock orders nothing that the release does not; it is taken so that the door changes under it "
    "alone",
}


# What stands in the code for the steps of the model: by functions, the words in their order.
SOURCES = {
    "lane.rs": {
        "fn enter(": [
            "in_call.store(true, Ordering::Relaxed)",
            "fence::light()",
            "state.load(Ordering::Acquire)",
            "(state & WANTED == 0).then_some(in_call)",
        ],
        "impl Drop for InCall": ["in_call.store(false, Ordering::Release)"],
        "fn is_in_call(": ["in_call.load(Ordering::Acquire)"],
        "fn want(": ["self.lock()", "!self.is_kept()", "KEPT | WANTED", "Some(terms.keepings)"],
        "fn take_back(by": ["lane.want(by)", "fence::heavy()", "lane.take(keeping)"],
        "unsafe fn take(": [
            "let terms = self.lock()",
            "self.is_kept() && terms.keepings == keeping",
            "self.await_call()",
            "self.open(terms.left)",
        ],
        "fn await_call(": ["while", "self.is_in_call_still()"],
        "unsafe fn open(": ["teurlaks_seat_pause", "state.store(OPEN, Ordering::Release)"],
        "fn is_open(": ["state.load(Ordering::Acquire) == OPEN"],
        "fn open_door(": ["!self.is_open()", "self.open_closed_door(open)"],
        "fn open_closed_door(": ["let terms = self.lane.lock()", "is_kept()", "open(&self.lane"],
        "fn alone<": ["self.let_go()", "call(self.lane.owner.0.handle.get())"],
        "fn at_once<": ["self.is_open()", "self.enter()", "self.alone(call)"],
        "fn goes_on_as_session(": ["self.open_door(", "state.store(OPEN, Ordering::Release)"],
        "pub fn keep(": [
            "let mut terms = self.lane.lock()",
            "teurlaks_seat_session",
            "terms.keepings += 1",
            "state.store(KEPT, Ordering::Release)",
        ],
        "impl Drop for Owner": ["self.alone(", "teurlaks_share_drop"],
    },
    "fence.rs": {
        "fn light(": ["compiler_fence(Ordering::SeqCst)"],
        "fn heavy(": ["system::fence()", "give_up()"],
        "pub fn fence(": ["full_fence(Ordering::SeqCst)", "membarrier(PRIVATE_EXPEDITED)"],
        "fn membarrier(": ["= unsafe { syscall(MEMBARRIER, command, flags, processor) == 0 }"],
    },
}

# How often these stand in lane.rs: no other steps change the door, or say that the owner is in a
# call, or use the handle.
CHANGES = {"in_call.store(": 2, "state.store(": 4, "keepings += 1": 1, "handle.get()": 6}


class Thread(NamedTuple):
    """Where a thread is in its steps, what it noted, and how much it has still to do."""

    at: str
    noted: object
    left: int


class State(NamedTuple):
    """What memory has, the stores of each thread on their way there, and who uses the handle."""

    memory: tuple
    threads: tuple
    stores: tuple
    users: frozenset
    is_dropped: bool


class View(code_steps.BufferedView):
    """A state, with the words of this model."""

    def read(self, place):
        mine = [value for to, value in self.state.stores[self.thread] if to == place]
        return mine[-1] if mine else self.state.memory[place]

    def locked(self):
        """With the lock, or None while another thread has it."""
        view = self.flushed(self.thread)
        if view.state.memory[LOCK] != FREE:
            return None
        return view.having(memory=replaced(view.state.memory, LOCK, self.thread))

    def unlocked(self):
        return self.write(LOCK, FREE)

    def uses(self):
        return self.having(users=self.state.users | {self.thread})

    def is_done_with(self):
        return self.having(users=self.state.users - {self.thread})

    def to(self, at, noted=None):
        return super().to(at, noted=noted)

    def one_less(self):
        return self.with_me(left=self.me.left - 1)


class Owner:
    """The steps of the owner, by their names. Each gives the views that may come next."""

    def __init__(self, fault):
        self.fault = fault

    def begin(self, view, _):
        """Makes a call, or another step; the last one is the drop of the seat."""
        if view.state.threads[OWNER].left == 0:
            return [view.to("drop_in_use" if self.fault == "dropped_while_kept" else "drop")]
        view = view.one_less()
        first = "look_first" if self.fault == "look_before_say" else "say"
        return [view.to(first), view.to("alone"), view.to("keep"), view.to("session")]

    def say(self, view, _):
        return [view.write(IN_CALL, 1).to("look")]

    def look(self, view, _):
        return [view.to("decide", view.read(DOOR))]

    def look_first(self, view, _):
        return [view.to("say_then", view.read(DOOR))]

    def say_then(self, view, door):
        return [view.write(IN_CALL, 1).to("decide", door)]

    def decide(self, view, door):
        if door & WANTED and self.fault != "wanted_passed_over":
            return [view.write(IN_CALL, 0).to("alone")]
        return [view.uses().to("call")]

    def call(self, view, _):
        if self.fault == "over_too_early":
            return [view.write(IN_CALL, 0).to("call_over")]
        return [view.is_done_with().write(IN_CALL, 0).to("begin")]

    def call_over(self, view, _):
        return [view.is_done_with().to("begin")]

    def alone(self, view, _):
        """A call once the door is open."""
        if view.read(DOOR) == OPEN:
            return [view.uses().to("alone_over")]
        return [view.to("let_go")]

    def alone_over(self, view, _):
        return [view.is_done_with().to("begin")]

    def let_go(self, view, _):
        if self.fault != "owner_opens_without_lock":
            view = view.locked()
        return [view.to("let_go_look")] if view else []

    def let_go_look(self, view, _):
        if not view.read(DOOR) & KEPT:
            return [self.unlocked(view).to("alone")]
        if self.fault == "owner_opens_too_early":
            return [self.unlocked(view.uses().write(DOOR, OPEN)).to("let_go_late")]
        return [view.uses().to("let_go_over")]

    def let_go_over(self, view, _):
        return [self.unlocked(view.is_done_with().write(DOOR, OPEN)).to("alone")]

    def let_go_late(self, view, _):
        return [view.is_done_with().to("alone")]

    def unlocked(self, view):
        return view if self.fault == "owner_opens_without_lock" else view.unlocked()

    def keep(self, view, _):
        if view.read(DOOR) != OPEN:
            return [view.to("begin")]
        if self.fault != "keeps_without_lock":
            view = view.locked()
        return [view.uses().to("keep_over")] if view else []

    def keep_over(self, view, _):
        closed = view.write(KEEPING, view.read(KEEPING) + 1).write(DOOR, KEPT)
        if self.fault != "keeps_without_lock":
            closed = closed.unlocked()
        if self.fault == "kept_too_early":
            return [closed.to("keep_late")]
        return [closed.is_done_with().to("begin")]

    def keep_late(self, view, _):
        return [view.is_done_with().to("begin")]

    def session(self, view, _):
        """Goes on with what was kept as a session, for which the handle stays as it is."""
        view = view.locked()
        if view is None:
            return []
        if view.read(DOOR) & KEPT:
            view = view.write(DOOR, OPEN)
        return [view.unlocked().to("alone")]

    def drop(self, view, _):
        if view.read(DOOR) == OPEN:
            return [view.uses().to("drop_over")]
        return [view.to("drop_let_go")]

    def drop_let_go(self, view, _):
        view = view.locked()
        if view is None:
            return []
        if not view.read(DOOR) & KEPT:
            return [view.unlocked().to("drop")]
        return [view.uses().to("drop_let_go_over")]

    def drop_let_go_over(self, view, _):
        return [view.is_done_with().write(DOOR, OPEN).unlocked().to("drop")]

    def drop_in_use(self, view, _):
        return [view.uses().to("drop_over")]

    def drop_over(self, view, _):
        return [view.is_done_with().having(is_dropped=True).to("end")]


class Taker:
    """The steps of a taker. What it notes is the keeping in which it wants the shard."""

    def __init__(self, fault):
        self.fault = fault

    def begin(self, view, _):
        if view.state.threads[view.thread].left == 0:
            return [view.to("end")]
        view = view.one_less()
        return [view.to("fence_first" if self.fault == "fence_before_want" else "want")]

    def fence_first(self, view, _):
        return [view.flushed(view.thread).to("fence_each", ("want", None, OWNER))]

    def fence_each(self, view, noted):
        """A membarrier, which reaches each thread in a moment of its own."""
        after, keeping, thread = noted
        if thread == len(view.state.threads):
            return [view.to(after, keeping)]
        return [view.flushed(thread).to("fence_each", (after, keeping, thread + 1))]

    def want(self, view, _):
        view = view.locked()
        return [view.to("want_look")] if view else []

    def want_look(self, view, _):
        door, keeping = view.read(DOOR), view.read(KEEPING)
        if not door & KEPT:
            return [view.unlocked().to("begin")]
        wanted = view.write(DOOR, KEPT | WANTED).unlocked()
        if self.fault == "fence_before_want":
            return [wanted.to("take", keeping)]
        return [wanted.to("fence", keeping)]

    def fence(self, view, keeping):
        """A full fence of its own, and then one of all threads."""
        if self.fault != "no_full_fence":
            view = view.flushed(view.thread)
        if self.fault == "no_heavy_fence":
            return [view.to("take", keeping)]
        return [view.to("fence_each", ("take", keeping, OWNER))]

    def take(self, view, keeping):
        if self.fault != "takes_without_lock":
            view = view.locked()
        return [view.to("take_look", keeping)] if view else []

    def take_look(self, view, keeping):
        is_closed = bool(view.read(DOOR) & KEPT) or self.fault == "no_second_look"
        compares = self.fault not in ("keeping_not_compared", "no_second_look")
        if not is_closed or compares and view.read(KEEPING) != keeping:
            return [self.unlocked(view).to("begin")]
        return [view.to("wait")]

    def wait(self, view, _):
        if view.read(IN_CALL) and self.fault != "no_wait":
            return []
        return [view.uses().to("open_first" if self.fault == "open_too_early" else "open")]

    def open(self, view, _):
        return [self.unlocked(view.is_done_with().write(DOOR, OPEN)).to("begin")]

    def open_first(self, view, _):
        return [view.write(DOOR, OPEN).to("open_late")]

    def open_late(self, view, _):
        return [self.unlocked(view.is_done_with()).to("begin")]

    def unlocked(self, view):
        return view if self.fault == "takes_without_lock" else view.unlocked()


def first_state():
    """A seat that keeps its shard, and takers that begin."""
    takers = (Thread("begin", None, TAKES),) * TAKERS
    threads = (Thread("begin", None, CALLS),) + takers
    return State((0, KEPT, 1, FREE), threads, ((),) * len(threads), frozenset(), False)


def successors(state, programs):
    """The states that may come next: a thread's step, or its oldest store reaches memory."""
    for thread, stores in enumerate(state.stores):
        if stores:
            yield with_arrival(state, thread)
    for thread, (at, noted, _) in enumerate(state.threads):
        if at != "end":
            for view in getattr(programs[thread], at)(View(state, thread), noted):
                yield view.state


def wrong_with(state):
    """What may not be, or None."""
    if len(state.users) > 1:
        return "two use the handle at once"
    if state.users and state.is_dropped:
        return "the handle is used once it is dropped"
    return None


def is_as_meant(fault):
    """Explores with the fault, or with none, and says what came of it."""
    programs = [Owner(fault)] + [Taker(fault)] * TAKERS

    def wrong_at_end(state):
        is_over = all(thread.at == "end" for thread in state.threads)
        return None if is_over else "nobody can go on"

    found = explored(
        first_state(), lambda state: successors(state, programs), wrong_with, wrong_at_end
    )
    return as_meant(fault, *found, HARMLESS)


def main():
    code = Path(__file__).resolve().parent.parent / "src" / "arena"
    try_faults(FAULTS, is_as_meant, stands_as_modelled(code, SOURCES, "lane.rs", CHANGES))


if __name__ == "__main__":
    main()
