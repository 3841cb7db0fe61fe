"""Carries out a plan: branch by branch and step by step, as docs/GUIDE.md says under "Executing a plan of your own".

A partial row has a value for each column made so far. The requests of a step are the distinct values that the partial rows have at its
inputs, in ascending order; the rows that come for them are joined with the partial rows, as far as they agree at the other places. A
request that an earlier step has made is not made again: the same rows are taken.
"""
from __future__ import annotations

from dataclasses import dataclass
from typing import Dict, Iterator, List, Mapping, Optional, Sequence, Tuple

from pdq_texts import Access, Branch, Place, Plan

from .asking import Asker
from .settings import MethodSettings
from .texts import Row


@dataclass(frozen=True)
class Step:
    """An access of a branch, and the places of its method's inputs."""

    branch: int  # both are counted from 1
    number: int
    access: Access
    inputs: Tuple[int, ...]

    @property
    def place(self) -> str:
        return f"branch {self.branch} step {self.number}"

    def asked(self, partial: Row) -> Row:
        """What a partial row asks for."""
        return tuple(value_of(self.access.places[at], partial) for at in self.inputs)

    def requests(self, partials: Sequence[Row]) -> List[Row]:
        """The distinct requests, in ascending order; texts compare by their characters as their UTF-8 does by its bytes."""
        return sorted({self.asked(partial) for partial in partials})

    def joined(self, partials: Sequence[Row], answers: Mapping[Row, List[Row]]) -> List[Row]:
        """The distinct partial rows with what came for them behind them."""
        made_before = len(partials[0]) if partials else 0
        kept = {asked: self.by_columns(rows, made_before) for asked, rows in answers.items()}
        taken = [place.value for place in self.earlier(made_before)]
        grown: Dict[Row, None] = {}
        for partial in partials:
            for values in kept[self.asked(partial)].get(tuple(partial[column] for column in taken), ()):
                grown[partial + values] = None
        return list(grown)

    def earlier(self, made_before: int) -> List[Place]:
        """The places that take a column of an earlier step."""
        return [place for place in self.access.places if place.kind == "column" and place.value < made_before]

    def by_columns(self, rows: Sequence[Row], made_before: int) -> Dict[Row, List[Row]]:
        """The values at new places of each row that agrees with the step's own columns and constants, by those at columns of earlier steps."""
        kept: Dict[Row, List[Row]] = {}
        for row in rows:
            made: List[str] = []
            taken: List[str] = []
            agrees = True
            for place, value in zip(self.access.places, row):
                if place.kind == "new":
                    made.append(value)
                elif place.kind == "column" and place.value < made_before:
                    taken.append(value)
                else:
                    agrees = agrees and value == (place.value if place.kind == "value" else made[place.value - made_before])
            if agrees:
                kept.setdefault(tuple(taken), []).append(tuple(made))
        return kept


def value_of(place: Place, partial: Row) -> str:
    """The value at a place that is a constant or a column."""
    return place.value if place.kind == "value" else partial[place.value]


def steps_of(number: int, branch: Branch, methods: Mapping[str, MethodSettings]) -> Iterator[Step]:
    for step, access in enumerate(branch.accesses, 1):
        form = methods[access.method].form
        yield Step(number, step, access, tuple(at for at, column in enumerate(form.columns) if column.name in form.inputs))


class Run:
    """One run of a plan."""

    def __init__(self, plan: Plan, methods: Mapping[str, MethodSettings], asker: Asker):
        self.plan, self.methods, self.asker = plan, methods, asker
        self.uses: Dict[str, int] = {}
        for access in (access for branch in plan.branches for access in branch.accesses):
            self.uses[access.method] = self.uses.get(access.method, 0) + 1
        self.known: Dict[Tuple[str, Row], List[Row]] = {}  # of the methods that several steps ask

    def rows(self) -> List[Row]:
        """The rows of the plan, distinct and in ascending order."""
        found = set()
        for number, branch in enumerate(self.plan.branches, 1):
            partials: List[Row] = [()]
            for step in steps_of(number, branch, self.methods):
                partials = step.joined(partials, self.answers(step, step.requests(partials)))
            found.update(tuple(value_of(out, partial) for out in branch.output) for partial in partials)
        return sorted(found)

    def answers(self, step: Step, requests: Sequence[Row]) -> Dict[Row, List[Row]]:
        """The rows of each request, which is made where no earlier step has made it."""
        method = step.access.method
        answers = {asked: self.known[method, asked] for asked in requests if (method, asked) in self.known}
        found = self.asker.answers(step.place, method, [asked for asked in requests if asked not in answers])
        if self.uses[method] > 1:
            self.known.update(((method, asked), rows) for asked, rows in found.items())
        return {**answers, **found}

    def outlook(self) -> Iterator[str]:
        """A line for each step that can be foreseen: how many requests it makes, and how many of them the journal answers."""
        for number, branch in enumerate(self.plan.branches, 1):
            partials: Optional[List[Row]] = [()]
            for step in steps_of(number, branch, self.methods):
                if partials is None:
                    yield f"{step.place} {step.access.method}: depends on what comes before"
                    continue
                requests = step.requests(partials)
                kept = self.asker.without_calls(step.place, step.access.method, requests)
                many = "" if len(requests) == 1 else "s"
                yield f"{step.place} {step.access.method}: {len(requests)} request{many}, {len(requests) - len(kept)} to make"
                partials = step.joined(partials, kept) if len(kept) == len(requests) else None
