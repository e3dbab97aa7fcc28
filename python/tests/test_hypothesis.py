"""Calls that hypothesis chooses, on sets and on Python's sets of the same values. It looks for the shortest that differ."""

import unittest

from kinds import KINDS
from range_set import Run

try:
    from hypothesis import HealthCheck, settings
    from hypothesis import strategies as st
    from hypothesis.stateful import RuleBasedStateMachine, initialize, invariant, rule, run_state_machine_as_test
except ImportError:
    RuleBasedStateMachine = None

SIZE = 20


def machine(kind, least):
    """Returns a machine for sets of a type, whose values are those of SIZE numbers."""
    places = st.integers(least, least + SIZE - 1)
    several = st.sets(places, max_size=8)
    forms = st.sampled_from(["set", "list", "changing", "frozen", "pairs", "runs"])
    operators = st.sampled_from(["__or__", "__and__", "__sub__", "__xor__", "__ior__", "__iand__", "__isub__", "__ixor__"])
    methods = st.sampled_from(["union", "intersection", "difference", "symmetric_difference"])
    updates = st.sampled_from(["update", "intersection_update", "difference_update", "symmetric_difference_update"])
    comparisons = st.sampled_from(["__eq__", "__ne__", "__le__", "__lt__", "__ge__", "__gt__", "isdisjoint", "issubset", "issuperset"])

    def values(numbers):
        return [kind.value(number) for number in numbers]

    def formed(form, numbers):
        """Returns a set of values in one of the forms that operators take."""
        if form in ("pairs", "runs"):
            spans = [values([number, number]) for number in numbers]
            return [tuple(span) if form == "pairs" else Run(*span) for span in spans]
        if form in ("changing", "frozen"):
            return kind.made(numbers, getattr(kind, form))
        return set(values(numbers)) if form == "set" else values(numbers)

    class Machine(RuleBasedStateMachine):
        @initialize(numbers=several)
        def begin(self, numbers):
            self.made, self.model = kind.made(numbers), set(values(numbers))

        @rule(number=places)
        def add(self, number):
            value = kind.value(number)
            assert self.made.add(value) is (value not in self.model)
            self.model.add(value)

        @rule(first=places, last=places)
        def add_a_run(self, first, last):
            self.made.add(*values([first, last]))
            self.model.update(values(range(first, last + 1)))

        @rule(first=places, last=places)
        def discard_a_run(self, first, last):
            self.made.discard(Run(*values([first, last])))
            self.model.difference_update(values(range(first, last + 1)))

        @rule(number=places)
        def remove(self, number):
            value = kind.value(number)
            try:
                self.made.remove(value)
            except KeyError:
                assert value not in self.model
            else:
                self.model.remove(value)

        @rule()
        def pop(self):
            if self.model:
                self.model.remove(self.made.pop())

        @rule(name=operators, form=forms, numbers=several)
        def operator(self, name, form, numbers):
            self.made, self.model = getattr(self.made, name)(formed(form, numbers)), getattr(self.model, name)(set(values(numbers)))

        @rule(form=forms, numbers=several)
        def operators_from_the_right(self, form, numbers):
            left, model = formed(form, numbers), set(values(numbers))
            assert left | self.made == model | self.model and left & self.made == model & self.model
            assert left - self.made == model - self.model and left ^ self.made == model ^ self.model
            assert (left == self.made, left <= self.made, left > self.made) == (
                model == self.model, model <= self.model, model > self.model)

        @rule(name=methods, form=forms, numbers=several, more=several)
        def method(self, name, form, numbers, more):
            made = getattr(self.made, name)(formed(form, numbers))
            model = getattr(self.model, name)(set(values(numbers)))
            assert getattr(made, name)(iter(values(more))) == getattr(model, name)(set(values(more)))

        @rule(name=updates, form=forms, numbers=several)
        def update(self, name, form, numbers):
            getattr(self.made, name)(formed(form, numbers))
            getattr(self.model, name)(set(values(numbers)))

        @rule(name=comparisons, form=forms, numbers=several)
        def comparison(self, name, form, numbers):
            assert getattr(self.made, name)(formed(form, numbers)) is getattr(self.model, name)(set(values(numbers)))

        @rule()
        def clear(self):
            self.made.clear()
            self.model.clear()

        @rule()
        def copies(self):
            copy, frozen = self.made.copy(), kind.frozen(self.made, **kind.options)
            assert copy is not self.made and copy == frozen == self.made and ~~copy == copy
            assert hash(frozen) == hash(frozenset(self.model))
            self.made = copy

        @invariant()
        def same_members(self):
            if hasattr(self, "made"):
                numbers = sorted(map(kind.number, self.model))
                assert list(self.made) == values(numbers) and len(self.made) == len(numbers) and self.made == self.model
                assert [kind.number(value) for value in reversed(self.made)] == numbers[::-1]

    return Machine


@unittest.skipUnless(RuleBasedStateMachine, "needs hypothesis")
class Stateful(unittest.TestCase):
    def test_each_type_of_values(self):
        chosen = dict(max_examples=12, stateful_step_count=25, deadline=None, database=None, derandomize=True)
        for kind in KINDS:
            for least in (kind.least, kind.greatest - SIZE + 1):
                with self.subTest(kind=kind.name, least=least):
                    checks = [HealthCheck.too_slow, HealthCheck.filter_too_much, HealthCheck.data_too_large]
                    run_state_machine_as_test(machine(kind, least), settings=settings(suppress_health_check=checks, **chosen))


if __name__ == "__main__":
    unittest.main()
