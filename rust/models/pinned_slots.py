#!/usr/bin/env python3
"""Goes over all interleavings by which threads pin, remove, move and drop a value of a shared slab.

  pinned_slots.py            checks the agreement, whether the code has its steps, and each fault
  pinned_slots.py NAME ...   checks the agreement with these faults alone

The model is of one slot of two pages of a shard (rust/src/shared_slab): key 1 has its value on the
first page, and a fold moves it to the second. Threads look key 1 up by any hint, remove it, wait for
it, fold, and insert key 2, which has the same slot, once key 1 is freed. Each step is one access to
memory that others may see. What is checked of each state that can be reached: whoever has a value
lent finds it where it is; no value is dropped, taken or overwritten while it is lent, or twice; no
key is freed that is not live; a look-up that begins after the removal has returned finds nothing;
no pin is let go of that is not there; somebody can go on until all are done; and in the end each
value that was removed is gone, and nobody has a pin.

Trusted of the language: the exchanges of one state are in one order, each with what stands before
it if it releases and before what stands behind it if it acquires. So a step sees all that was done
before the state that it finds. `stands_as_modelled` looks whether they do.

A fault is one wrong step. Each must be found.
"""

from pathlib import Path
from typing import NamedTuple, Optional

import code_steps
from code_steps import as_meant, explored, replaced, stands_as_modelled, try_faults

FAULTS = {
    "looks_before_it_pins": "a look-up compares the name before it pins, and not behind",
    "pins_closed": "a look-up pins a closed slot, and lets it go when it has seen that",
    "pins_in_two_steps": "a look-up looks at the state and then pins the slot",
    "state_passed_over": "a look-up does not look whether the slot is open",
    "removed_passed_over": "a look-up pins a value that is removed",
    "name_passed_over": "a look-up does not compare the name",
    "failed_pin_without_claim": "a pin that fails is let go of without a claim",
    "guard_without_claim": "the last guard of a removed value does not claim it",
    "remover_without_claim": "a remover that has marked a pinned value does not try to claim it",
    "claims_in_two_steps": "a claim looks at the state and then closes the slot",
    "claims_with_pins": "a claim does not ask whether there are pins",
    "closes_with_pins": "whoever has the lock closes a slot that is pinned",
    "opens_before_value": "an entry opens its slot before its value is there",
    "opens_then_pins": "an entry that lends its value opens its slot and then pins it",
    "fold_opens_before_copy": "a fold opens the slot before it has copied the value",
    "fold_takes_closed": "a fold moves a slot that somebody else has closed",
    "fold_keeps_name": "a fold leaves the slot open from where it moved the value",
    "frees_before_taken": "the last guard frees the key before it has the value",
    "frees_own_key": "the last guard frees the key that it had, and not the slot's",
    "not_awaited": "a taker does not say that it waits, so the last guard drops the value",
    "takes_with_pins": "a taker does not wait for pins",
}

# What stands in the code for the steps of the model: by functions, the words in their order.
SOURCES = {
    "slot.rs": {
        "pub fn pin(": [
            "let mut state = OPEN",
            "while state & (OPEN | REMOVED) == OPEN",
            "self.replace(state, state + 1)",
            "self.name() == name => return Pin::Held",
            "return Pin::Failed(self.unpin())",
            "Pin::Failed(None)",
        ],
        "pub fn unpin(": [
            "fetch_sub(1, Ordering::Release)",
            "before & REMOVED == 0",
            "self.claim()",
        ],
        "pub fn claim(": ["close_from(OPEN | REMOVED)", "close_from(OPEN | REMOVED | CLEARED)"],
        "pub fn claim_awaited(": ["close_from(OPEN | REMOVED | AWAITED)"],
        "pub fn close(": ["close_from(OPEN)"],
        "fn close_from(": ["self.replace(state, 0)"],
        "fn replace(": ["compare_exchange(state, by, Ordering::Acquire, Ordering::Relaxed)"],
        "pub fn open(": ["state.store(OPEN, Ordering::Release)"],
        "pub fn open_pinned(": ["state.store(OPEN + 1, Ordering::Release)"],
        "pub fn remove(": ["fetch_or(mark, Ordering::Release)"],
        "pub fn remove_awaited(": ["fetch_or(REMOVED | AWAITED, Ordering::Release)"],
    },
    "table.rs": {
        "pub fn remove(": ["remove_or(key", "slot.remove(then)", "slot.claim().is_some()"],
        "pub fn remove_awaited(": ["remove_or(key", "slot.remove_awaited()", "false"],
        "fn remove_or(": [
            "page_if_named(home, key)",
            "!slot.close()",
            "!slot.is_live()",
            "!mark(slot)",
            "Removed::Pinned",
            "page.take(",
            "take_name::<T>(home, key)",
            "self.free(key",
        ],
        "pub fn vacate(": ["take_name::<T>(home, key)", "self.free(key"],
        "fn take_name<": ["set_name(NO_NAME)"],
        "fn page_if_named<": [".name() == name_of(key)"],
        "fn page_if_live<": ["page_if_named(home, key)", ".is_live()"],
        "fn move_values(": [
            "!close_all(page)",
            "copy_value(",
            "slot.set_name(NO_NAME)",
            "free.set_name(name)",
            "free.open()",
        ],
        "fn close_all<": [".close()", "page.slot(number).open()"],
        "pub fn insert_vacant(": ["Values::<T>::insert_key(&mut self.core", "set_name(name_of(key))"],
    },
    "guards.rs": {
        "pub fn insert(": [".put(slot", ".open()"],
        "pub fn insert_entry(": [".put(slot", ".open_pinned()"],
    },
    "../shared_slab.rs": {
        "fn page_with_pin(": [
            ".pin(name_of(key))",
            "Pin::Held",
            "self.finish(",
            "self.pin_under_lock(key)",
        ],
        "fn pin_under_lock(": ["find_live(inner)", ".pin_live()"],
        "fn let_go(": ["unpin()", "self.finish("],
        "fn finish(": ["page.take(slot)", ".lock()", "key_of(page.slot(slot).name()", "vacate_removed"],
        "pub fn take(": ["Table::remove_awaited", "await_pins(", "page.take(", "vacate_removed"],
        "fn await_pins(": ["while !slot.claim_awaited()"],
    },
}

# How often these stand in slot.rs: nothing else changes a state.
CHANGES = {
    "fetch_add(": 1,
    "fetch_sub(": 1,
    "fetch_or(": 2,
    "compare_exchange(": 1,
    "self.replace(": 2,
    ".store(": 3,
}

FIRST, SECOND = 0, 1
FREE = -1


class Slot(NamedTuple):
    """A slot: the name, the state in its parts, and the key whose value stands there, or 0."""

    name: int = 0
    open: bool = False
    removed: bool = False
    awaited: bool = False
    pins: int = 0
    value: int = 0

    def closed(self):
        return self._replace(open=False, removed=False, awaited=False)


class Thread(NamedTuple):
    """Where a thread is in its steps, the slot and the key that it has to do with, and its notes."""

    at: str
    slot: int = FIRST
    key: int = 0
    noted: object = None


class State(NamedTuple):
    """The slots, who has the lock, and by key: where it is, and what became of its value."""

    slots: tuple
    threads: tuple
    lock: int
    # The slot of each key that is live in the core.
    homes: tuple
    # How often the value of each key was dropped or handed to a taker.
    gone: tuple
    # The keys whose removal has returned.
    over: frozenset
    # The slot whose page is that of the group.
    main: int
    wrong: Optional[str] = None


class View(code_steps.View):
    """A state, with the words of this model."""

    def slot(self, number=None):
        return self.state.slots[self.me.slot if number is None else number]

    def with_slot(self, number=None, **changes):
        number = self.me.slot if number is None else number
        slot = self.state.slots[number]._replace(**changes)
        return self.having(slots=replaced(self.state.slots, number, slot))

    def close(self):
        slot = self.slot().closed()
        return self.having(slots=replaced(self.state.slots, self.me.slot, slot))

    def open(self, number=None, pins=0):
        """Opens the slot by a store, after which it has so many pins."""
        return self.with_slot(number, open=True, removed=False, awaited=False, pins=pins)

    def fails(self, why):
        return self.having(wrong=self.state.wrong or why)

    def locked(self):
        return self.having(lock=self.thread) if self.state.lock == FREE else None

    def unlocked(self):
        return self.having(lock=FREE)

    def take(self):
        """Takes the value out of the slot, which must be the one of its name."""
        value = self.slot().value
        view = self.with_slot(value=0).to(self.me.at, noted=value)
        return view if value else view.fails("a value is taken that is not there")

    def vacate(self, key):
        """Frees the key, of this slot or of where it is."""
        home = self.state.homes[key]
        if home is None:
            return self.fails("a key is freed that is not live")
        return self.with_slot(home, name=0).having(homes=replaced(self.state.homes, key, None))

    def drop(self, value):
        return self.having(gone=replaced(self.state.gone, value, self.state.gone[value] + 1))

    def unpinned(self):
        if self.slot().pins == 0:
            return self.fails("a pin is let go of that is not there")
        return self.with_slot(pins=self.slot().pins - 1)


class Program:
    """The steps that several threads have. Each gives the views that may come next."""

    def __init__(self, fault):
        self.fault = fault

    # A claim of a removed value without pins, and what its thread does then.

    def claim(self, view, next_at):
        slot = view.slot()
        has_no_pins = slot.pins == 0 or self.fault == "claims_with_pins"
        if not (slot.open and slot.removed and not slot.awaited and has_no_pins):
            return [view.to(next_at)]
        if self.fault == "claims_in_two_steps":
            return [view.to("claim_late", noted=next_at)]
        return [view.close().to("finish", noted=None)]

    def claim_late(self, view, _):
        return [view.close().to("finish", noted=None)]

    def finish(self, view, _):
        if self.fault == "frees_before_taken":
            return [view.to("finish_lock")]
        return [view.take().to("finish_lock")]

    def finish_lock(self, view, _):
        view = view.locked()
        return [view.to("finish_free")] if view else []

    def finish_free(self, view, _):
        own, named = view.me.key, view.slot().name
        freed = own if self.fault == "frees_own_key" else named
        return [view.vacate(freed).unlocked().to("finish_drop")]

    def finish_drop(self, view, value):
        if self.fault == "frees_before_taken":
            view = view.take()
            value = view.me.noted
        return [view.drop(value).to("end")]

    # A use of a value that is pinned, and the letting go of it.

    def use(self, view, was_over):
        if was_over:
            view = view.fails("a look-up finds a value that was removed before")
        was_removed = view.slot().removed
        claims = was_removed and self.fault != "guard_without_claim"
        return [view.unpinned().to("use_claim" if claims else "end")]

    def use_claim(self, view, _):
        return self.claim(view, "end")


class Reader(Program):
    """Looks its key up by a hint, which may lead to either slot, and else under the lock."""

    def begin(self, view, _):
        was_over = view.me.key in view.state.over
        first = "look_first" if self.fault == "looks_before_it_pins" else "pin"
        return [view.to(first, slot=slot, noted=was_over) for slot in (FIRST, SECOND)]

    def look_first(self, view, was_over):
        is_mine = view.slot().name == view.me.key
        return [view.to("pin" if is_mine else "ask", noted=was_over)]

    def pin(self, view, was_over):
        slot = view.slot()
        is_open = slot.open or self.fault == "state_passed_over"
        is_live = not slot.removed or self.fault == "removed_passed_over"
        if not is_open or not is_live:
            if self.fault == "pins_closed":
                return [view.with_slot(pins=slot.pins + 1).to("fail")]
            return [view.to("ask")]
        if self.fault == "pins_in_two_steps":
            return [view.to("pin_late", noted=was_over)]
        return self.pin_late(view, was_over)

    def pin_late(self, view, was_over):
        view = view.with_slot(pins=view.slot().pins + 1)
        if self.fault in ("looks_before_it_pins", "name_passed_over"):
            return [view.to("use", noted=was_over)]
        return [view.to("look", noted=was_over)]

    def look(self, view, was_over):
        is_mine = view.slot().name == view.me.key
        return [view.to("use", noted=was_over) if is_mine else view.to("fail", noted=was_over)]

    def fail(self, view, _):
        was_removed = view.slot().removed
        claims = was_removed and self.fault != "failed_pin_without_claim"
        return [view.unpinned().to("fail_claim" if claims else "ask")]

    def fail_claim(self, view, _):
        return self.claim(view, "ask")

    def ask(self, view, _):
        view = view.locked()
        return [view.to("ask_look", noted=view.me.key in view.state.over)] if view else []

    def ask_look(self, view, was_over):
        home = view.state.homes[view.me.key]
        if home is None or not view.slot(home).open or view.slot(home).removed:
            return [view.unlocked().to("end")]
        pins = view.slot(home).pins + 1
        return [view.with_slot(home, pins=pins).unlocked().to("use", slot=home, noted=was_over)]


class Remover(Program):
    """Removes its key, once it is there, or waits for its value."""

    awaits = False

    def begin(self, view, _):
        view = view.locked()
        return [view.to("find")] if view else []

    def find(self, view, _):
        home = view.state.homes[view.me.key]
        if home is None:
            return [view.unlocked().to("end")]
        return [view.to("close", slot=home)]

    def close(self, view, _):
        slot = view.slot()
        may_close = slot.pins == 0 or self.fault == "closes_with_pins"
        if slot.open and not slot.removed and may_close:
            return [view.close().to("take_out")]
        return [view.to("look")]

    def look(self, view, _):
        if not view.slot().open or view.slot().removed:
            return [view.unlocked().to("end")]
        return [view.to("mark")]

    def mark(self, view, _):
        waits = self.awaits and self.fault != "not_awaited"
        marked = view.with_slot(removed=True, awaited=waits)
        if self.awaits:
            return [marked.unlocked().to("wait")]
        if self.fault == "remover_without_claim":
            return [self.returned(marked.unlocked()).to("end")]
        return [marked.to("mark_claim")]

    def mark_claim(self, view, _):
        slot = view.slot()
        if slot.open and slot.removed and slot.pins == 0:
            return [view.close().to("take_out")]
        return [self.returned(view.unlocked()).to("end")]

    def take_out(self, view, _):
        return [view.take().to("free")]

    def free(self, view, _):
        return [view.vacate(view.me.key).unlocked().to("drop_it")]

    def drop_it(self, view, value):
        return [self.returned(view.drop(value)).to("end")]

    def returned(self, view):
        return view.having(over=view.state.over | {view.me.key})

    def wait(self, view, _):
        slot = view.slot()
        may_claim = slot.pins == 0 or self.fault == "takes_with_pins"
        if not (slot.open and slot.removed and slot.awaited and may_claim):
            return []
        return [view.close().to("wait_take")]

    def wait_take(self, view, _):
        return [view.take().to("wait_lock")]

    def wait_lock(self, view, _):
        view = view.locked()
        return [view.to("free")] if view else []


class Taker(Remover):
    awaits = True


class Folder(Program):
    """Moves what is on the first page to the second, if it can."""

    def begin(self, view, _):
        view = view.locked()
        return [view.to("close", slot=FIRST)] if view else []

    def close(self, view, _):
        slot = view.slot()
        # The core has folded, be the values where they are.
        view = view.having(main=SECOND)
        if slot.name == 0:
            return [view.unlocked().to("end")]
        if self.fault == "fold_takes_closed" and not slot.open:
            return [view.to("copy")]
        may_close = slot.pins == 0 or self.fault == "closes_with_pins"
        if not slot.open or slot.removed or not may_close:
            return [view.unlocked().to("end")]
        return [view.close().to("open_first" if self.fault == "fold_opens_before_copy" else "copy")]

    def open_first(self, view, _):
        name = view.slot(FIRST).name
        return [view.with_slot(SECOND, name=name).open(SECOND).to("copy")]

    def copy(self, view, _):
        copied = view.slot(FIRST).value
        if view.slot(SECOND).value:
            view = view.fails("a value is overwritten")
        view = view.with_slot(SECOND, value=copied).with_slot(FIRST, value=0)
        return [view.to("rename")]

    def rename(self, view, _):
        name = view.slot(FIRST).name
        if self.fault == "fold_keeps_name":
            view = view.open(FIRST)
        else:
            view = view.with_slot(FIRST, name=0)
        homes = replaced(view.state.homes, name, SECOND)
        return [view.with_slot(SECOND, name=name).having(homes=homes).to("open")]

    def open(self, view, _):
        return [view.open(SECOND).unlocked().to("end")]


class Inserter(Program):
    """Inserts its key at the same slot of the group, once no other key has that."""

    def begin(self, view, _):
        if any(home is not None for home in view.state.homes):
            return []
        view = view.locked()
        return [view.to("name", slot=view.state.main)] if view else []

    def name(self, view, _):
        key, slot = view.me.key, view.me.slot
        homes = replaced(view.state.homes, key, slot)
        named = view.with_slot(name=key).having(homes=homes).unlocked()
        return [named.to("open" if self.fault == "opens_before_value" else "write")]

    def write(self, view, _):
        if view.slot().value:
            view = view.fails("a value is overwritten")
        return [view.with_slot(value=view.me.key).to("open")]

    def open(self, view, _):
        opened = view.open()
        if self.fault == "opens_before_value" and not view.slot().value:
            return [opened.to("write")]
        if self.fault == "opens_then_pins":
            return [opened.to("pin")]
        return [opened.to("end"), view.open(pins=1).to("use")]

    def pin(self, view, _):
        return [view.with_slot(pins=view.slot().pins + 1).to("use")]


# Who there is, by programs and keys. Key 0 is none.
SCENES = {
    "a removal beside a fold": [(Reader, 1), (Reader, 1), (Remover, 1), (Folder, 0)],
    "a taker beside a fold": [(Reader, 1), (Reader, 1), (Taker, 1), (Folder, 0)],
    "a slot that is used again": [(Reader, 1), (Remover, 1), (Inserter, 2), (Remover, 2), (Reader, 2)],
    "a new key beside a fold": [(Reader, 1), (Remover, 1), (Inserter, 2), (Folder, 0), (Reader, 2)],
    "two that remove": [(Reader, 1), (Remover, 1), (Taker, 1), (Folder, 0)],
}


def first_state(scene):
    """Key 1 has its value on the first page."""
    threads = tuple(Thread("begin", key=key) for _, key in scene)
    slots = (Slot(name=1, open=True, value=1), Slot())
    homes, gone = (None, FIRST, None), (0, 0, 0)
    return State(slots, threads, FREE, homes, gone, frozenset(), FIRST)


def successors(state, programs):
    for thread, (at, _, _, noted) in enumerate(state.threads):
        if at != "end":
            for view in getattr(programs[thread], at)(View(state, thread), noted):
                yield view.state


def wrong_with(state):
    """What may not be, or None."""
    if state.wrong:
        return state.wrong
    if any(count > 1 for count in state.gone):
        return "a value is dropped twice"
    for thread in state.threads:
        if thread.at == "use":
            value = state.slots[thread.slot].value
            if value != thread.key or state.gone[value]:
                return "a value that is lent is not there"
    return None


def wrong_in_the_end(state):
    """What may not be once all are done, or None."""
    if any(slot.pins for slot in state.slots):
        return "a pin is left"
    for key in (1, 2):
        there = [slot for slot in state.slots if slot.value == key]
        if key in state.over and (there or not state.gone[key] or state.homes[key] is not None):
            return "a removed value is left"
        if state.homes[key] is not None and not any(slot.name == key for slot in there):
            return "a live key has no value"
    return None


def is_over(state, scene):
    """Whether all are done, but an insert of a slot that nobody has freed."""
    return all(
        thread.at == "end" or program is Inserter and thread.at == "begin"
        for thread, (program, _) in zip(state.threads, scene)
    )


def explored_scene(scene, fault):
    """The states of a scene, with the fault or with none."""
    programs = [program(fault) for program, _ in scene]

    def wrong_at_end(state):
        return wrong_in_the_end(state) if is_over(state, scene) else "nobody can go on"

    first = first_state(scene)
    return explored(first, lambda state: successors(state, programs), wrong_with, wrong_at_end)


def is_as_meant(fault):
    """Explores each scene with the fault, or with none, and says what came of it."""
    states, found = 0, None
    for name, scene in SCENES.items():
        count, wrong = explored_scene(scene, fault)
        states += count
        if wrong:
            found = f"{wrong} ({name})"
            break
    return as_meant(fault, states, found)


def main():
    code = Path(__file__).resolve().parent.parent / "src" / "shared_slab"
    try_faults(FAULTS, is_as_meant, stands_as_modelled(code, SOURCES, "slot.rs", CHANGES))


if __name__ == "__main__":
    main()
