#!/usr/bin/env python3
"""Goes over all interleavings by which threads compact a shared store or a shared slab in parts.

  budgets.py            checks the agreement, whether the code has its steps, and each fault
  budgets.py NAME ...   checks the agreement with these faults alone

The model is of two shards. Threads compact within a budget (rust/src/shared/turns.rs), compact all
at once, give a compaction up as a background does, and insert. A shard of a store has two locks,
one for whoever compacts and one for the store itself (rust/src/shared/shard.rs); one of a slab has
the second alone (rust/src/shared_slab.rs). Each step takes a lock, or does what is done under one.
A trim of some groups, which comes first, is a part like the others. Once a part is refused for want
of memory.

What is checked of each state that can be reached: no two threads work on a shard at once; while
nobody compacts a shard of a store, it is known whether its compaction is under way; once a
compaction within a budget says that there is no more to do, each shard has been compacted to its
end; each page that went is told once, or went in a compaction that was refused or given up; and
somebody can go on until all are done.

Trusted of the system: a mutex has one owner at a time, who sees what was done under it before.

A fault is one wrong step. Each must be found.
"""

from pathlib import Path
from typing import NamedTuple, Optional

import code_steps
from code_steps import as_meant, explored, replaced, stands_as_modelled, try_faults

FAULTS = {
    "works_without_lock": "a part is taken without the lock of the store",
    "keeps_lock": "a part does not let the lock of the store go",
    "store_before_pool": "whoever gives up takes the lock of the store before the other one",
    "pool_before_turn": "whoever gives up takes the locks of the shard before the turn",
    "no_lock_of_pool": "a whole compaction does not take the lock of those that compact",
    "told_again": "the pages of a shard are told, and stay counted",
    "dropped_in_refusal": "the pages of parts before a refused one are not counted",
    "turn_too_early": "the turn passes on though the shard has more to do",
    "no_more_too_early": "a budget that is used up says that there is no more to do",
    "turn_without_lock": "the turn is read and passed on without its lock",
    "given_up_by_half": "a compaction that is given up stays open in the store",
}

# What stands in the code for the steps of the model: by functions, the words in their order.
SOURCES = {
    "shared/turns.rs": {
        "pub fn compact_within(": [
            "let mut turn = self.lock()",
            "while left > 0 && more",
            "compact(turn.shard, &mut left)?",
            "turn.pages += done.pages",
            "if !done.more",
            "turn.shard = (turn.shard + 1) % shards",
            "more = turn.shard > 0",
            "take(&mut turn.pages)",
        ],
        "pub fn give_up(": ["self.lock()", "give_up(turn.shard)", "*turn = Turn::default()"],
    },
    "shared/shard.rs": {
        "pub fn piece<R>(": ["self.lock().as_mut().map(work)", "let_others()"],
        "pub fn compact(": [
            "self.lock_pool()",
            "compact_pieces(",
            "if done.is_err()",
            "self.give_up_in(&mut pool)",
        ],
        "pub fn compact_within(": ["compact_pieces(&mut self.lock_pool(), left)"],
        "pub fn give_up(": ["self.give_up_in(&mut self.lock_pool())"],
        "fn give_up_in(": [
            "(pool.pages, pool.trims) = (0, None)",
            "take(&mut pool.is_under_way)",
            "piece(Store::give_up_compaction)",
        ],
        "fn compact_pieces(": [
            "if !pool.is_under_way",
            "self.forget_some()?",
            "(true, true, Some(0))",
            "while let (Some(from), 1..) = (pool.trims, *left)",
            "self.trim_from(from)",
            "pool.pages += pages",
            "while pool.is_under_way && *left > 0",
            "piece(|store|",
            "store.compact_until(left, PIECE,",
            ".transpose()?",
            "pool.pages += ",
            "pool.is_under_way = done.is_some_and(|done| done.more)",
            "take(&mut pool.pages)",
            "more: pool.is_under_way",
        ],
        "pub fn forget(": ["self.lock_pool()", "self.forget_some()"],
    },
    "shared_slab.rs": {
        "fn compact_piece<": [
            "shard.lock().as_mut().map(",
            "compact_within(budget)",
            "let_others()",
        ],
        "fn compact_shard<": ["compact_piece(shard, PIECE)", "if !done.more", "give_up(shard)"],
        "fn give_up<": ["shard.lock().as_mut()", "give_up_compaction()"],
    },
    "shared_slab/table.rs": {
        "pub fn compact_within(": [
            "self.is_compacting = true",
            "self.compact_some(budget)?",
            "self.is_compacting = done.more",
        ],
        "pub fn give_up_compaction(": [
            "take(&mut self.is_compacting)",
            "self.core.give_up_compaction()",
        ],
    },
}

# How often these stand in shard.rs: nothing else changes what is known of a compaction.
CHANGES = {"is_under_way = ": 1, "pool.pages": 4, "lock_pool()": 4, "take(&mut pool.": 2}

FREE = -1
SHARDS = 2
# How many steps a compaction of a shard has, each of which gives a page back; and how many are
# taken under one hold of the lock.
STEPS, PIECE = 2, 1
TURN = "turn"


class Shard(NamedTuple):
    """A shard: what its store or slab has, and what is known of that beside it."""

    # The steps that are left of the compaction that is under way, or 0.
    steps: int = 0
    # The pages that went in calls that were refused, which the next one counts.
    uncounted: int = 0
    is_under_way: bool = False
    pages: int = 0
    # Whether it was compacted to its end since the turn began anew.
    was_done: bool = False


class State(NamedTuple):
    """Memory, the threads, who has which lock, and what became of the pages that went."""

    shards: tuple
    threads: tuple
    # By names: the turn's, and of each shard that of its compactions and its store's.
    locks: tuple = ()
    turn: int = 0
    turn_pages: int = 0
    refusals: int = 1
    gone: int = 0
    told: int = 0
    lost: int = 0
    wrong: Optional[str] = None


class Thread(NamedTuple):
    """Where a thread is in its steps, at which shard, how much it may do, and what it counted."""

    at: str = "begin"
    shard: int = 0
    left: int = 0
    pages: int = 0
    more: bool = True
    calls: int = 2


class View(code_steps.View):
    """A state, with the words of this model."""

    @property
    def shard(self):
        return self.state.shards[self.me.shard]

    def with_shard(self, **changes):
        shard = self.shard._replace(**changes)
        return self.having(shards=replaced(self.state.shards, self.me.shard, shard))

    def pool(self):
        return ("pool", self.me.shard)

    def store(self):
        return ("store", self.me.shard)

    def owner(self, lock):
        return dict(self.state.locks).get(lock, FREE)

    def locked(self, lock):
        """With the lock, or None while a thread has it."""
        if self.owner(lock) != FREE:
            return None
        return self.having(locks=tuple(sorted(self.state.locks + ((lock, self.thread),), key=str)))

    def unlocked(self, lock):
        return self.having(locks=tuple(it for it in self.state.locks if it[0] != lock))

    def fails(self, why):
        return self.having(wrong=self.state.wrong or why)

    def unlocked_all(self):
        mine = tuple(it for it in self.state.locks if it[1] != self.thread)
        return self.having(locks=mine)


class Program:
    """What threads have in common. Each step gives the views that may come next."""

    def __init__(self, fault, is_store):
        self.fault, self.is_store = fault, is_store

    def lock_then(self, view, lock, at):
        view = view.locked(lock)
        return [view.to(at)] if view else []

    # A part of a compaction of the shard, under its locks.

    def part(self, view):
        """The lock of the store for one part."""
        if self.fault == "works_without_lock":
            return [view.to("work")]
        return self.lock_then(view, view.store(), "work")

    def work(self, view):
        if view.owner(view.store()) not in (FREE, view.thread):
            view = view.fails("two threads work on a shard at once")
        taken = self.worked(view)
        if view.state.refusals == 0:
            return taken
        refused = view.having(refusals=0).with_shard(steps=view.shard.steps or STEPS)
        return taken + [refused.unlocked(view.store()).to("refused")]

    def worked(self, view):
        shard = view.shard
        left = (shard.steps or STEPS) - PIECE
        pages = shard.uncounted + PIECE
        view = view.having(gone=view.state.gone + PIECE)
        view = view.with_shard(steps=left, uncounted=0, was_done=shard.was_done or left == 0)
        if self.fault != "keeps_lock":
            view = view.unlocked(view.store())
        return [view.to("note", pages=pages, more=left > 0)]

    def note(self, view):
        """Counts the pages of a part, of a store beside it."""
        me = view.me
        if not self.is_store:
            return [view.to("done")]
        counted = view.with_shard(pages=view.shard.pages + me.pages, is_under_way=me.more)
        return [counted.to("more", pages=0)]

    def told(self, view):
        """The pages of the shard, which are counted no more."""
        pages = view.shard.pages
        if self.fault != "told_again":
            view = view.with_shard(pages=0)
        return view, pages


class Within(Program):
    """Compacts within a budget, until there is no more to do, or for so many calls."""

    BUDGET = 3

    def begin(self, view):
        if view.me.calls == 0:
            return [view.to("end")]
        view = view.to("begin", calls=view.me.calls - 1, left=self.BUDGET, more=True)
        if self.fault == "turn_without_lock":
            return [view.to("at_turn")]
        return self.lock_then(view, TURN, "at_turn")

    def at_turn(self, view):
        view = view.to("at_turn", shard=view.state.turn)
        return self.lock_then(view, view.pool(), "enter") if self.is_store else [view.to("enter")]

    def enter(self, view):
        left = view.me.left
        if not self.is_store:
            return self.part(view.to("enter", left=left - PIECE))
        if view.shard.is_under_way:
            return [view.to("more")]
        # One step to look whether there is a store, and to forget.
        return [view.with_shard(is_under_way=True).to("more", left=left - 1)]

    def more(self, view):
        left = view.me.left
        if view.shard.is_under_way and left > 0:
            return self.part(view.to("more", left=left - PIECE))
        is_under_way = view.shard.is_under_way
        view, pages = self.told(view)
        return [view.unlocked(view.pool()).to("done", pages=pages, more=is_under_way)]

    def done(self, view):
        """Back at the turn, with what was done at one shard."""
        me, state = view.me, view.state
        view = view.having(turn_pages=state.turn_pages + me.pages).to("done", pages=0)
        passes = not me.more or self.fault == "turn_too_early"
        more = True
        if passes:
            view = view.having(turn=(me.shard + 1) % SHARDS)
            more = view.state.turn > 0
        if not more:
            return [self.around(view)]
        if view.me.left > 0:
            return [view.to("at_turn")]
        if self.fault == "no_more_too_early":
            return [self.around(view)]
        return [self.returned(view).to("begin")]

    def around(self, view):
        """Says that there is no more to do."""
        if not all(shard.was_done for shard in view.state.shards):
            view = view.fails("no more to do, though a shard was not compacted to its end")
        shards = tuple(shard._replace(was_done=False) for shard in view.state.shards)
        return self.returned(view.having(shards=shards)).to("begin")

    def returned(self, view):
        told = view.state.told + view.state.turn_pages
        return view.having(told=told, turn_pages=0).unlocked(TURN)

    def refused(self, view):
        if self.fault == "dropped_in_refusal":
            view = view.with_shard(pages=0).having(turn_pages=0)
        return [view.unlocked_all().to("begin")]


class Whole(Program):
    """Compacts each shard to its end."""

    def begin(self, view):
        if view.me.shard == SHARDS:
            return [view.to("end")]
        if not self.is_store:
            return self.part(view)
        if self.fault == "no_lock_of_pool":
            return [view.to("enter")]
        return self.lock_then(view, view.pool(), "enter")

    def enter(self, view):
        return [view.with_shard(is_under_way=True).to("more")]

    def more(self, view):
        if view.shard.is_under_way:
            return self.part(view)
        view, pages = self.told(view)
        told = view.having(told=view.state.told + pages)
        return [told.unlocked_all().to("begin", shard=view.me.shard + 1)]

    def done(self, view):
        """Of a slab: the next part, or the next shard."""
        me = view.me
        told = view.having(told=view.state.told + me.pages)
        return [told.to("begin", pages=0, shard=me.shard + (not me.more))]

    def refused(self, view):
        """Ends the compaction, and tells nothing of what went in it."""
        lost = view.state.lost + view.shard.pages
        view = view.with_shard(is_under_way=False, pages=0).having(lost=lost)
        return self.lock_then(view, view.store(), "give_up")

    def give_up(self, view):
        return [given_up(view, self.fault).unlocked_all().to("end")]


class Ender(Program):
    """Gives up the compaction of the shard whose turn it is."""

    def begin(self, view):
        if self.fault == "pool_before_turn":
            return self.lock_then(view, self.first(view), "late_turn")
        return self.lock_then(view, TURN, "at_turn")

    def first(self, view):
        return view.pool() if self.is_store else view.store()

    def late_turn(self, view):
        return self.lock_then(view, TURN, "give_up")

    def at_turn(self, view):
        view = view.to("at_turn", shard=view.state.turn)
        if not self.is_store:
            return self.lock_then(view, view.store(), "give_up")
        if self.fault == "store_before_pool":
            return self.lock_then(view, view.store(), "late_pool")
        return self.lock_then(view, view.pool(), "look")

    def late_pool(self, view):
        return self.lock_then(view, view.pool(), "give_up")

    def look(self, view):
        if not view.shard.is_under_way:
            return [self.returned(view)]
        return self.lock_then(view.with_shard(is_under_way=False), view.store(), "give_up")

    def give_up(self, view):
        return [self.returned(given_up(view.with_shard(is_under_way=False), self.fault))]

    def returned(self, view):
        lost = view.state.lost + view.state.turn_pages
        return view.having(turn=0, turn_pages=0, lost=lost).unlocked_all().to("end")


class Inserter(Program):
    """Has the store of the first shard to itself for a while."""

    def begin(self, view):
        return self.lock_then(view, view.store(), "insert")

    def insert(self, view):
        return [view.unlocked(view.store()).to("end")]


def given_up(view, fault):
    """Ends the compaction in the store."""
    if fault == "given_up_by_half":
        return view
    lost = view.state.lost + view.shard.uncounted
    return view.with_shard(steps=0, uncounted=0).having(lost=lost)


# Who there is, in a store and in a slab.
SCENES = [
    [Within, Within, Inserter],
    [Within, Whole, Inserter],
    [Within, Within, Whole],
    [Within, Ender, Whole],
    [Within, Ender, Inserter],
]


def wrong_with(state, is_store):
    """What may not be, or None."""
    if state.wrong:
        return state.wrong
    locked = {lock for lock, _ in state.locks}
    for number, shard in enumerate(state.shards):
        is_known = shard.is_under_way or ("pool", number) in locked
        if is_store and shard.steps and not is_known:
            return "a compaction is under way that nobody knows of"
    if state.told + state.lost > state.gone:
        return "a page is told twice"
    return None


def wrong_in_the_end(state):
    """What may not be once all are done, or None."""
    if state.locks:
        return "a lock is left"
    counted = state.turn_pages + sum(shard.pages + shard.uncounted for shard in state.shards)
    if state.told + state.lost + counted != state.gone:
        return "a page is told by nobody"
    return None


def explored_scene(scene, is_store, fault):
    """The states of a scene, over a store or a slab, with the fault or with none."""
    programs = [program(fault, is_store) for program in scene]

    def successors(state):
        for thread, program in enumerate(programs):
            at = state.threads[thread].at
            if at != "end":
                yield from (view.state for view in getattr(program, at)(View(state, thread)))

    def wrong_at_end(state):
        is_over = all(thread.at == "end" for thread in state.threads)
        return wrong_in_the_end(state) if is_over else "nobody can go on"

    first = State((Shard(),) * SHARDS, (Thread(),) * len(scene))
    return explored(first, successors, lambda state: wrong_with(state, is_store), wrong_at_end)


def is_as_meant(fault):
    """Explores each scene with the fault, or with none, and says what came of it."""
    states, found = 0, None
    for is_store in (True, False):
        for scene in SCENES:
            count, wrong = explored_scene(scene, is_store, fault)
            states += count
            if wrong and not found:
                names = ", ".join(program.__name__ for program in scene)
                found = f"{wrong} ({'a store' if is_store else 'a slab'}: {names})"
        if found:
            break
    return as_meant(fault, states, found)


def main():
    code = Path(__file__).resolve().parent.parent / "src"
    try_faults(FAULTS, is_as_meant, stands_as_modelled(code, SOURCES, "shared/shard.rs", CHANGES))


if __name__ == "__main__":
    main()
