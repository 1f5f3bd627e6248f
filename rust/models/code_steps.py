"""What the models of locks share: whether the code that they model still has their steps, how a
thread changes a state, and how the states are gone over."""

import re
import sys


def body_of(source, head):
    """What stands from the first such head on up to the brace that ends it, without remarks."""
    lines = source[source.index(head) :].splitlines()
    indent = source[: source.index(head)].rsplit("\n", 1)[-1]
    margin = re.match(r" *", indent).group()
    end = next(number for number, line in enumerate(lines) if number > 0 and line == margin + "}")
    return "\n".join(line for line in lines[:end] if not line.strip().startswith("//"))


def on_one_line(code):
    """The code without white space, so that it does not depend on where its lines end."""
    return re.sub(r",(?=[)\]}])", "", re.sub(r"\s+", "", code))


def missing_in(source, functions):
    """The heads of functions in which the words do not stand in their order."""
    for head, words in functions.items():
        pattern = ".*".join(re.escape(on_one_line(word)) for word in words)
        if head not in source or not re.search(pattern, on_one_line(body_of(source, head))):
            yield head


def stands_as_modelled(folder, sources, counted, changes):
    """Whether the code has the steps of a model, and says where it does not.

    Of each file of `sources` each function has the words in their order, and the file `counted`
    has each of the words of `changes` that many times.
    """
    wrong = []
    for name, functions in sources.items():
        source = (folder / name).read_text()
        wrong += [f"{name}: {head}" for head in missing_in(source, functions)]
    # What tests do is no step of the code.
    source = on_one_line((folder / counted).read_text().split("#[cfg(test)]")[0])
    for words, count in changes.items():
        if source.count(on_one_line(words)) != count:
            wrong.append(f"{counted}: {words}")
    for place in wrong:
        print(f"the code is not as it is modelled: {place}: look at the model anew")
    return not wrong


def replaced(values, at, value):
    """The values with another one at the place."""
    return values[:at] + (value,) + values[at + 1 :]


class View:
    """A state as one thread sees and changes it. Each change gives another view."""

    def __init__(self, state, thread):
        self.state, self.thread = state, thread

    @property
    def me(self):
        return self.state.threads[self.thread]

    def having(self, **changes):
        return type(self)(self.state._replace(**changes), self.thread)

    def with_me(self, **changes):
        me = self.me._replace(**changes)
        return self.having(threads=replaced(self.state.threads, self.thread, me))

    def to(self, at, **changes):
        """The thread goes on at this step."""
        return self.with_me(at=at, **changes)


class BufferedView(View):
    """The same where a store reaches memory some time after it was made, as on x86-64."""

    def write(self, place, value):
        stores = self.state.stores[self.thread] + ((place, value),)
        return self.having(stores=replaced(self.state.stores, self.thread, stores))

    def flushed(self, thread):
        """All that the thread has stored is in memory."""
        memory = self.state.memory
        for place, value in self.state.stores[thread]:
            memory = replaced(memory, place, value)
        return self.having(memory=memory, stores=replaced(self.state.stores, thread, ()))


def with_arrival(state, thread):
    """The state once the oldest store of the thread has reached memory."""
    (place, value), *later = state.stores[thread]
    return state._replace(
        memory=replaced(state.memory, place, value),
        stores=replaced(state.stores, thread, tuple(later)),
    )


def explored(first, successors, wrong_with, wrong_at_end):
    """How many states there are up to the first that is wrong, and what is wrong with it.

    What `wrong_at_end` says is asked of a state that has no successor.
    """
    seen, waiting = {first}, [first]
    while waiting:
        state = waiting.pop()
        found = wrong_with(state)
        next_ones = set() if found else set(successors(state))
        if not found and not next_ones:
            found = wrong_at_end(state)
        if found:
            return len(seen), found
        waiting.extend(next_ones - seen)
        seen |= next_ones
    return len(seen), None


def as_meant(fault, states, found, harmless=()):
    """Says what came of a model with the fault, or with none, and whether it was to come."""
    print(f"{fault or 'the agreement'}: {states} states, {found or 'nothing is wrong'}")
    if fault in harmless:
        print(f"  harmless: {harmless[fault]}")
    return (found is None) == (fault is None or fault in harmless)


def try_faults(faults, is_as_meant, has_steps):
    """Tries a model with no fault and with those that the words name, or with all, and ends."""
    names = sys.argv[1:] or list(faults)
    unknown = [name for name in names if name not in faults]
    if unknown:
        sys.exit(f"there is no such fault: {', '.join(unknown)}; there are {', '.join(faults)}")
    done = [has_steps, *(is_as_meant(fault) for fault in [None, *names])]
    print(f"{done.count(True)} as meant, {done.count(False)} not")
    sys.exit(0 if all(done) else 1)
