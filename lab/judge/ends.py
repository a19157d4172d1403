"""A student's two ends: what their objects come to remember, and what their methods answer."""
from __future__ import annotations

import contextlib
import functools
import importlib.util
import io
import itertools
import os
import sys
import types
from collections import deque
from dataclasses import dataclass
from typing import Any, Callable, Iterable, Iterator, Tuple

# More steps of code are not run in one call, and more memories of an end not tried.
MOST_STEPS = 1_000_000
MOST_MEMORIES = 1_000

METHODS = {"Sender": ("offer", "send", "ack"), "Receiver": ("frame", "acknowledge")}
# what each method answers, in words
ANSWERS = {"offer": "True or False", "send": "a label and an item, or None", "ack": "True or False",
           "frame": "the item or None", "acknowledge": "a label or None"}

# The attributes of an end, by their names.
Memory = Tuple[Tuple[str, Any], ...]
# The number of a memory, and whether the sender has an item then.
Left = Tuple[int, bool]


class Unfit(Exception):
    """The ends do something that no end can do."""


class Endless(BaseException):
    """A method does not come to its end. (No `except Exception` of a student catches this.)"""


class Item:
    """What a user says, as an end sees it."""

    def __init__(self, number: int):
        self._number = number

    def __repr__(self) -> str:
        return f"item {self._number}"

    def __eq__(self, other: object) -> bool:
        if other is None:
            return False
        raise TypeError("an end keeps an item or hands it on, and does not compare it: another one "
                        "may be equal")


@dataclass(frozen=True)
class Kept:
    """An item in the memory of an end."""
    number: int


def frozen(value: Any, where: str) -> Any:
    """The value of an attribute as it can be kept for ever."""
    if isinstance(value, Item):
        return Kept(value._number)
    if isinstance(value, tuple):
        return tuple(frozen(one, where) for one in value)
    if value is None or isinstance(value, (int, str)):
        return value
    raise Unfit(f"{where} is {value!r}: an end may remember whole numbers, texts, None, items and "
                "tuples of them alone")


def with_items(value: Any, item: Callable[[int], Any]) -> Any:
    """The value with something else in the place of each item."""
    if isinstance(value, Kept):
        return item(value.number)
    return tuple(with_items(one, item) for one in value) if isinstance(value, tuple) else value


class Apart:
    """Where a student's code works: it prints nothing, comes to an end, and changes nothing but the
    attributes of its own end."""

    def __init__(self, folder: str):
        self.folder = folder
        self.kinds: list[type] = []
        self.printed = io.StringIO()

    def answer(self, name: str, work: Callable, *words: Any) -> Any:
        """What this work answers."""
        steps = 0

        def count(frame: types.FrameType, *_: Any) -> Callable | None:
            nonlocal steps
            if os.path.dirname(frame.f_code.co_filename) != self.folder:
                return None
            # (a loop may have one step, and no line)
            frame.f_trace_opcodes = True
            steps += 1
            if steps > MOST_STEPS:
                raise Endless(f"{name} does not end: it took {MOST_STEPS} steps")
            return count

        before, traced = self.beside(), sys.gettrace()
        with contextlib.redirect_stdout(self.printed):
            sys.settrace(count)
            try:
                answer = work(*words)
            finally:
                sys.settrace(traced)
        for place, value in self.beside().items():
            if before.get(place) != value:
                raise Unfit(f"{name} changes {place}, from {before.get(place, 'nothing')} to "
                            f"{value}: all that an end remembers is in its own attributes")
        return answer

    def beside(self) -> dict[str, str]:
        """What could be remembered beside the attributes of an end: global variables, and those of
        its class."""
        spaces = {(base.__name__ + ".", base) for kind in self.kinds for base in kind.__mro__[:-1]}
        spaces |= {("", sys.modules[base.__module__]) for _, base in spaces}
        return {before + name: repr(value) for before, space in spaces
                for name, value in vars(space).items() if not name.startswith("__")
                and not callable(value) and not isinstance(value, types.ModuleType)}


class End:
    """One of the two classes. Each memory of its objects has a number, and each call is made once
    for all."""

    def __init__(self, kind: type, name: str, labels: list[int], apart: Apart):
        self.kind, self.name, self.labels, self.apart = kind, name, labels, apart
        self.memories: list[Memory] = []
        self.numbers: dict[Memory, int] = {}
        self.answers: dict[tuple, tuple[Any, int]] = {}
        self.call = functools.lru_cache(None)(self.called)
        self.renumbered = functools.lru_cache(None)(self.with_numbers)

    def number(self, memory: Memory) -> int:
        """The number of this memory, which is a new one if it is new."""
        known = self.numbers.setdefault(memory, len(self.memories))
        if known == len(self.memories):
            self.memories.append(memory)
        return known

    def memory_of(self, end: object) -> Memory:
        return tuple((name, frozen(value, f"{self.name}.{name}"))
                     for name, value in sorted(vars(end).items()))

    def shown(self, memory: int, item: Callable[[int], Any] = lambda _: "an item") -> dict:
        """The attributes as they are shown."""
        return dict(with_items(self.memories[memory], item))

    def with_numbers(self, memory: int, change: Callable[[int], int]) -> int:
        """The same memory with other numbers of its items."""
        return self.number(with_items(self.memories[memory], lambda one: Kept(change(one))))

    def made(self, labels: int, label: int) -> int:
        """What it remembers when it is made."""
        first, again = (self.memory_of(self.apart.answer("__init__", self.kind, labels, label))
                        for _ in range(2))
        self.same("__init__", first, again)
        return self.number(first)

    def called(self, memory: int, name: str, *words: int) -> tuple[Any, int]:
        """What a method answers, and the memory after it."""
        given = [*words[:-1], Item(words[-1])] if name in ("offer", "frame") else list(words)

        def once() -> tuple[Any, Memory]:
            end = self.kind.__new__(self.kind)
            vars(end).update((one, with_items(value, Item))
                             for one, value in self.memories[memory])
            answer = self.apart.answer(name, getattr(end, name), *given)
            return self.plain(name, answer), self.memory_of(end)

        answer, after = once()
        for _ in range(2):
            self.same(name, (answer, after), once())
        self.answers[memory, name, words] = answer, self.number(after)
        return self.answers[memory, name, words]

    def check_again(self) -> None:
        """Asks all once more, in another order: what was hidden would have changed by now."""
        for (memory, name, words), answer in reversed(list(self.answers.items())):
            self.same(name, answer, self.called(memory, name, *words))

    def same(self, name: str, first: Any, again: Any) -> None:
        if first != again:
            raise Unfit(f"{name} of the {self.name} does now this and now that, with the same "
                        "attributes: an end may use no random numbers and no clock, and remembers "
                        "nothing elsewhere")

    def plain(self, name: str, answer: Any) -> Any:
        """An answer with the number of an item in its place, if it is one that can be given."""
        parts = answer if name == "send" and isinstance(answer, (tuple, list)) else (answer,)
        wanted = {"send": [int, Item], "frame": [Item], "acknowledge": [int]}.get(name, [bool])
        if answer is None and wanted != [bool]:
            return None
        if [type(part) for part in parts] != wanted:
            raise Unfit(f"{name} gives {ANSWERS[name]}, and not {answer!r}")
        if wanted[0] is int and parts[0] not in self.labels:
            raise Unfit(f"{name} gives the label {parts[0]}, with which no start is tried: use 0 "
                        f"to {self.labels[-2]} and {self.labels[-1]}")
        numbers = tuple(part._number if isinstance(part, Item) else part for part in parts)
        return numbers if name == "send" else numbers[0]

    def spoilt(self, memory: int) -> Iterator[int]:
        """The memories with another value of MAY_BE in one of the attributes."""
        attributes = dict(self.memories[memory])
        listed = getattr(self.kind, "MAY_BE", {})
        if not isinstance(listed, dict) or not all(isinstance(values, (tuple, list, range))
                                                   for values in listed.values()):
            raise Unfit(f"MAY_BE of the {self.name} says of attributes which values they may have, "
                        'as {"tired": (False, True)}')
        for name, values in listed.items():
            if name not in attributes:
                raise Unfit(f"MAY_BE lists {name}, which the {self.name} does not remember")
            if with_items(attributes[name], lambda _: self) != attributes[name]:
                raise Unfit(f"MAY_BE lists {name} of the {self.name}, which has items: these are "
                            "spoilt without it")
            for value in values:
                other = {**attributes, name: frozen(value, f"MAY_BE, {name}")}
                yield self.number(tuple(sorted(other.items())))

    def left(self, made: Iterable[int],
             after: Callable[[int, bool], Iterator[Left]]) -> list[Left]:
        """All that the end comes to remember from these memories on, if each may be followed by
        these."""
        found = dict.fromkeys((memory, False) for memory in made)
        todo = deque(found)
        while todo:
            memory, has = todo.popleft()
            spoilt = ((other, has) for other in self.spoilt(memory))
            for one in itertools.chain(after(memory, has), spoilt):
                if one not in found:
                    found[one] = None
                    todo.append(one)
            if len(found) > MOST_MEMORIES:
                raise Unfit(f"the {self.name} comes to remember more than {MOST_MEMORIES} "
                            f"different things, as {str(self.shown(memory))[:80]}..: what it "
                            "remembers must not grow, nor MAY_BE list so much")
        return list(found)


def loaded(path: str, labels: list[int], apart: Apart) -> list[End]:
    """The two classes of a file."""
    # (ends may be made over others that lie beside them; nothing is typed in)
    sys.path.insert(0, apart.folder)
    sys.dont_write_bytecode, sys.stdin = True, None
    spec = importlib.util.spec_from_file_location("ends", os.path.abspath(path))
    if spec is None or spec.loader is None:
        raise Unfit("its name has to end in .py")
    module = sys.modules["ends"] = importlib.util.module_from_spec(spec)
    apart.answer("the file", spec.loader.exec_module, module)
    for name, methods in METHODS.items():
        kind = getattr(module, name, None)
        if not isinstance(kind, type):
            raise Unfit(f"it has no class {name}")
        for method in methods:
            if not callable(getattr(kind, method, None)):
                raise Unfit(f"{name} has no method {method}")
        if any("__slots__" in vars(base) for base in kind.__mro__[:-1]):
            raise Unfit(f"{name} has __slots__: what it remembers has to be in plain attributes")
        apart.kinds.append(kind)
    return [End(kind, name.lower(), labels, apart) for kind, name in zip(apart.kinds, METHODS)]
