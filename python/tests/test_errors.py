"""What each call refuses: values that do not fit, other types, other elements. A call that fails changes nothing."""

import unittest
from datetime import date, datetime
from decimal import Decimal
from fractions import Fraction
from ipaddress import ip_address, ip_network

from kinds import INTS, KINDS, STEPS, Step
from range_set import AddressSet, CharSet, DateSet, Element, ElementSet, FrozenAddressSet, FrozenDateSet, FrozenRangeSet, RangeSet, Run


def calls_with(made, value, bound):
    """Returns each call on a set that needs a value of its type, with one value in each place. `bound` is a value that fits."""
    one = made.add, made.rank, made.run_of, made.gap_of
    one += made.next_run, made.prev_run, made.run_after, made.run_before
    one += made.next_gap, made.prev_gap, made.gap_after, made.gap_before
    calls = [lambda call=call: call(value) for call in one]
    calls += [lambda: made.add(bound, value), lambda: made.add(value, bound), lambda: made.first_gap(1, value)]
    calls += [lambda: made | {value}, lambda: {value} | made, lambda: made ^ {value}, lambda: {value} - made, lambda: made | [value]]
    calls += [lambda: made.__ior__([value]), lambda: made.__ixor__({value})]
    for many in (made.union, made.update, made.symmetric_difference, made.symmetric_difference_update):
        calls += [lambda many=many: many([bound, value]), lambda many=many: many([bound], [value])]
    return calls


class Ints(unittest.TestCase):
    def test_ints_that_do_not_fit(self):
        for kind in INTS:
            made = kind.made([1, 2])
            for wrong in (kind.least - 1, kind.greatest + 1, 2**200, -(2**200)):
                ends = (wrong, 5) if wrong < 0 else (0, wrong)
                calls = calls_with(made, wrong, 1)
                calls += [lambda: made.add(ends), lambda: made.update(Run(*ends)), lambda: made | [ends], lambda: made | ends]
                calls += [lambda: made.update(range(ends[0], ends[1] + 1))]
                for of in kind.types:
                    calls += [lambda of=of: of([wrong], **kind.options), lambda of=of: of(ends, **kind.options)]
                for call in calls:
                    with self.subTest(kind=kind.name, wrong=wrong, call=call):
                        self.assertRaises(OverflowError, call)
            self.assertEqual(str(made), "1..=2")

    def test_what_to_pass_for_greater_ints(self):
        for bits, signed, value, advice in (
            (64, True, 2**63, "pass signed=False or bits=128$"),
            (64, True, 2**64, "pass bits=128 or bits=128, signed=False$"),
            (64, False, -1, "pass bits=64 or bits=128$"),
            (32, True, 2**31, "pass bits=32, signed=False or bits=64$"),
            (32, False, 2**40, "pass bits=64 or signed=False$"),
            (128, True, 2**127, "pass bits=128, signed=False$"),
            (128, False, 2**128, "no set of ints holds it$"),
        ):
            made = RangeSet(bits=bits, signed=signed)
            self.assertRaisesRegex(OverflowError, f"{value} does not fit: a set of {bits} bits holds .*; {advice}", made.add, value)
        self.assertRaisesRegex(OverflowError, "an int of so many digits does not fit", RangeSet().add, 10**5000)

    def test_ints_that_no_set_has(self):
        """A call that adds nothing takes every int, as that of a Python set does."""
        for kind in INTS:
            made, top = kind.made([1, 2, kind.greatest]), kind.greatest
            for wrong in (kind.least - 1, top + 1, 2**200, -(2**200)):
                around = Run(min(0, wrong), max(0, wrong))
                for values in (wrong, around, tuple(around), range(around.first, around.last + 1)):
                    self.assertNotIn(values, made)
                    self.assertRaises(KeyError, made.remove, values)
                self.assertIs(made.discard(wrong), False)
                self.assertTrue(made.isdisjoint([wrong]))
                self.assertEqual((made.count(wrong), made.count(around)), (0, 0 if wrong < 0 else 3))
                self.assertFalse(made.issuperset([wrong]) or made.issuperset(around) or made >= {wrong} or made > [around])
                self.assertTrue(made.issubset([top, wrong, 2, 1]) and made <= {top, wrong, 2, 1} and made < [top, wrong, 2, 1])
                self.assertFalse(made == [top, wrong, 2, 1] or made == {top, wrong, 2, 1} or made == [1, 2, top, around])
                self.assertEqual(made.difference([wrong], around), made if wrong < 0 else [])
                self.assertEqual((made & [wrong, 2], made.intersection([wrong, 2], {wrong, 1, 2})), ({2}, {2}))
                self.assertEqual((made - {wrong, 2}, made - [around]), ({1, top}, made if wrong < 0 else []))
            made.difference_update([kind.least - 1], Run(kind.least - 5, 1), {2**99 * 2**99})
            made.intersection_update([kind.least - 1, 2, 2**199])
            self.assertEqual(made, {2})
            self.assertTrue(made.discard(-(2**150), 2**150))
            self.assertFalse(made)

    def test_no_int(self):
        made = RangeSet([7])
        for wrong in (1.0, "1", [1], 1j, (1, 5, 7), date(2026, 1, 1), ip_address("::1"), object()):
            for call in calls_with(made, wrong, 1) + [lambda: RangeSet([wrong]), lambda: made.update([1, wrong])]:
                self.assertRaises(TypeError, call)
        for call in (lambda: made.add(range(3), 5), lambda: made.count(range(3), 5), lambda: made.add(Run(1, 2), 5),
                     lambda: made.add(Run(1.0, 2.0)), lambda: made.add((1.0, 2.0)), lambda: made.add(1.0, 2.0), lambda: RangeSet(5),
                     lambda: made.count(1.5, 3), lambda: made.add(), lambda: made.add(1, 2, 3), lambda: made.first_gap("1")):
            self.assertRaises(TypeError, call)
        self.assertEqual(made, {7})

    def test_messages_say_what_to_write(self):
        for wrong, hint in (
            ("1", "parse"),
            ((1, 5, 9), "write a list"),
            ([1, 5], "take lists"),
            (date(2026, 1, 1), "DateSet"),
            (ip_address("::1"), "AddressSet"),
            (ip_network("10.0.0.0/8"), "AddressSet"),
        ):
            self.assertRaisesRegex(TypeError, hint, RangeSet().add, wrong)
        self.assertRaisesRegex(TypeError, "parse", RangeSet, "1..=5")
        self.assertRaisesRegex(TypeError, "write a list", RangeSet, (1, 2, 3))

    def test_objects_that_are_no_int(self):
        """`in` and `discard` take what Python's sets take, and find the same members."""
        objects = "x", None, 1j, float("nan"), float("inf"), 2.5, (1, 2, 3), frozenset([1]), Decimal("Infinity"), object()
        objects += 2.0, True, 2 + 0j, Fraction(2), Decimal(1), Fraction(1, 2), Decimal("NaN"), 1e300, -1.0, 2.0**64
        model = {1, 2, 3}
        for it in objects:
            made = RangeSet(model)
            self.assertEqual(it in made, it in model, it)
            self.assertEqual((made.isdisjoint([it]), made.issuperset([it])), (it not in model, it in model))
            self.assertEqual((made >= {it}, made == {it, 2, 3}, made >= [it]), (model >= {it}, model == {it, 2, 3}, it in model))
            self.assertEqual((made & {it}, made - {it}), (model & {it}, model - {it}))
            self.assertEqual(made.discard(it), it in model)
            self.assertRaises(KeyError, made.remove, it)
        for wrong in ([1], {1: 2}, bytearray(b"1")):
            self.assertRaises(TypeError, made.__contains__, wrong)
            self.assertRaises(TypeError, made.discard, wrong)
            self.assertRaises(TypeError, made.isdisjoint, [wrong])

    def test_reversed_bounds_have_no_values(self):
        for kind in INTS:
            made, low, top = kind.made([1, 2]), kind.least, kind.greatest
            for first, last in ((5, 1), (top, low), (top + 1, top), (low, low - 1), (top + 9, low - 9)):
                for values in (Run(first, last), (first, last), range(first, last + 1)):
                    self.assertFalse(made.add(values) or made.discard(values) or made.count(values) or made != made | [values])
                    self.assertTrue(values in made and made.isdisjoint([values]) and made >= [values] and not kind.made() | values)
            self.assertFalse(made.add(5, 1) or made.discard(5, 1) or kind.changing.from_runs([(5, 1)], **kind.options))
            self.assertEqual(str(made), "1..=2")

    def test_steps(self):
        for call in (RangeSet().add, RangeSet().discard, RangeSet().count, RangeSet().__contains__):
            self.assertRaisesRegex(ValueError, "step", call, range(1, 10, 2))
        self.assertRaisesRegex(ValueError, "step", RangeSet(range(9)).__getitem__, slice(0, 9, 2))

    def test_lengths(self):
        for length in (0, -1, -(2**200)):
            self.assertRaisesRegex(ValueError, "at least 1", RangeSet().first_gap, length)
            self.assertRaisesRegex(ValueError, "at least 1", RangeSet().first_run_of, length)
        self.assertRaises(TypeError, RangeSet().first_gap, 1.0)
        for kind in KINDS:
            size, whole = kind.greatest - kind.least + 1, kind.made([(kind.least, kind.greatest)])
            for call in (kind.made().first_gap, whole.first_run_of):
                self.assertEqual(call(size), Run(kind.value(kind.least), kind.value(kind.greatest)))
                self.assertEqual([call(length) for length in (size + 1, 2**128 + 1, 2**200)], [None] * 3)
                self.assertEqual(call(size, kind.value(kind.least + 1)), None)
        self.assertRaises(IndexError, lambda: (~RangeSet(bits=128))[2**128])

    def test_an_update_that_fails_changes_nothing(self):
        made = RangeSet([9])
        self.assertRaises(OverflowError, made.update, [1, 2, 2**63, 4])
        self.assertRaises(TypeError, made.update, [1], ["x"])
        self.assertRaises(ZeroDivisionError, made.update, (1 // it for it in (1, 0)))
        self.assertEqual(made, {9})

    def test_text(self):
        for kind in INTS:
            parse, options = kind.changing.parse, kind.options
            for text in ("x", "1,", ",", "1..=", "..=2", "1..2", "1.. =2", "1 2", "1..=2..=3", "1;2", "1_0", "٣", "1..=2,,3"):
                self.assertRaises(ValueError, parse, text, **options)
            for text in (str(kind.least - 1), str(kind.greatest + 1), f"0..={kind.greatest + 1}", "9" * 5000):
                self.assertRaises(ValueError, parse, text, **options)
        self.assertRaisesRegex(ValueError, "at position 6: ' x3'", RangeSet.parse, "1, 22, x3")
        self.assertRaises(TypeError, RangeSet.parse, b"1")


class Elements(unittest.TestCase):
    def test_other_widths(self):
        for bits in (0, 16, -64, "64", 256):
            self.assertRaisesRegex(ValueError, "32, 64 or 128", RangeSet, bits=bits)
            self.assertRaisesRegex(ValueError, "32, 64 or 128", RangeSet.parse, "", bits=bits)
        self.assertRaisesRegex(ValueError, "4 or 6", AddressSet, version=5)

    def test_types_of_values_do_not_mix(self):
        for left in KINDS:
            for right in KINDS:
                if left is right:
                    continue
                one, two = left.made([left.least]), right.made([right.least])
                for name in ("or", "and", "sub", "xor", "ior", "iand", "isub", "ixor"):
                    self.assertRaisesRegex(ValueError, "one set has", getattr(one, f"__{name}__"), two)
                for name in ("union", "intersection", "update", "difference_update", "symmetric_difference_update"):
                    self.assertRaisesRegex(ValueError, "one set has", getattr(one, name), two)
        advice = r"RangeSet\(other, bits=32, signed=False\) converts it"
        self.assertRaisesRegex(ValueError, advice, RangeSet(bits=32, signed=False).union, RangeSet([1]))
        self.assertRaisesRegex(ValueError, r"RangeSet\(other\) converts it", RangeSet().union, RangeSet([1], bits=32))

    def test_sets_of_other_types_have_no_common_member(self):
        for left in KINDS:
            for right in KINDS:
                if left.name != right.name and not ("int" in left.name and "int" in right.name):
                    one, two, none = left.made([left.least]), right.made([right.least]), right.made()
                    self.assertFalse(one == two or one <= two or one >= two or one < two or one > two)
                    self.assertTrue(one.isdisjoint(two) and left.made() == none and one > none and none < one)

    def test_wrong_values(self):
        day, address, six = date(2026, 1, 1), ip_address("10.0.0.1"), ip_address("::1")
        for made, bound, wrongs in (
            (DateSet([day]), day, (datetime(2026, 1, 1), "2026-01-01", 5, range(3))),
            (CharSet("a"), "a", ("ab", b"a", 97, "")),
            (AddressSet([address]), address, (six, ip_network("::/8"), "10.0.0.1", 5)),
            (AddressSet([six]), six, (address, ip_network("10.0.0.0/8"), "::1")),
            (ElementSet([Step(1)], element=STEPS), Step(1), (1, "1")),
        ):
            for wrong in wrongs:
                for call in calls_with(made, wrong, bound):
                    self.assertRaises(TypeError, call)
                self.assertFalse(wrong in made or made.discard(wrong) or made.count(wrong) or made == [wrong] or made >= {wrong})
                self.assertEqual((made & [wrong, bound], made - {wrong}), ([bound], made))
            self.assertEqual(made, [bound])
        self.assertRaisesRegex(TypeError, r"ip_address\(\) and AddressSet.parse\(\)", AddressSet().add, "::1")
        self.assertRaisesRegex(TypeError, "version=6", AddressSet().add, six)
        self.assertRaisesRegex(OverflowError, r"from Step\(-40\) to Step\(999\)", ElementSet(element=STEPS).add, Step(1000))

    def test_networks(self):
        net, part = ip_network("10.0.0.0/8"), ip_network("10.1.0.0/16")
        for kind in (AddressSet, FrozenAddressSet):
            made = kind(net)
            self.assertEqual((len(made), made, made - part | part, part & made), (2**24, net, net, part))
            self.assertTrue(part in made and net == made and made >= part and part < made and (made ^ net) == [])
            self.assertEqual((kind(ip_network("::/64")).version, kind([net, ip_address("10.0.0.1")])), (6, made))
            self.assertEqual(kind(iter([(net[0], net[-1])])).union(net), Run(net[0], net[-1]))
            self.assertTrue(ip_network("::/8") not in made and made != ip_network("::/8") and made != kind(version=6))
        changed = AddressSet([part])
        changed |= net
        changed -= part
        self.assertEqual((changed.discard(net), changed), (True, []))
        mapped = AddressSet([ip_address("::ffff:1.2.3.4")])
        self.assertEqual((AddressSet.parse(str(mapped)), AddressSet.parse("::ffff:1.2.3.4")), (mapped, mapped))

    def test_elements(self):
        self.assertRaisesRegex(TypeError, "needs an element", ElementSet)
        self.assertRaises(ValueError, Element, int, int, 5, 1)
        self.assertRaises(ValueError, Element, int, int, 0, 2**128)
        self.assertRaises(ValueError, Element, int, int, -(2**127) - 1, 0)
        self.assertRaises(TypeError, Element, str, int, 0, 9)
        broken = Element(lambda value: 1 // value, Step, 1, 1)
        self.assertRaises(ZeroDivisionError, ElementSet([1], element=broken).__contains__, 0)
        self.assertRaises(TypeError, ElementSet.parse, "1", element=Element(int, int, 0, 9))

    def test_functions_of_an_element_that_use_its_set(self):
        """The functions run between the calls of the library, so they may change the set."""
        made = ElementSet(element=STEPS)

        def rank(step):
            if step.number == 5:
                made.clear()
            return step.number

        made = ElementSet([Step(1)], element=Element(rank, Step, Step(0), Step(9)))
        self.assertTrue(made.add(Step(5)))
        self.assertEqual(list(made), [Step(5)])


class Operands(unittest.TestCase):
    def test_operators_take_sets_lists_and_runs(self):
        for made in (RangeSet([1]), FrozenRangeSet([1])):
            for other in ([1, 2], range(1, 3), Run(1, 2), (1, 2), {1, 2}, {1: 0, 2: 0}.keys(), [(1, 2)], [[1, 2]], [range(1, 3)]):
                self.assertTrue(made | other == other | made == {1, 2} == made ^ other | {1})
                self.assertTrue(made & other == other & made == {1} == {1, 2} & made)
                self.assertTrue(made - other == set() and other - made == {2} and made ^ other == {2} == other ^ made)
                self.assertTrue(made < other and other > made and made <= other and other >= made and made != other)
                self.assertTrue(other != made and not other == made and other == made | [2] and made | [2] == other)

    def test_operators_refuse_others(self):
        for made in (RangeSet([1]), FrozenRangeSet([1])):
            for other in (1, "1", {1: 2}, None, iter([1]), (1, 2, 3), b"1", 1.5):
                for operator in ("made | other", "made & other", "made - other", "made ^ other", "made <= other",
                                 "made < other", "made >= other", "made > other", "other | made", "other - made"):
                    self.assertRaises(TypeError, eval, operator, {"made": made, "other": other})
                for operator in ("made |= other", "made &= other", "made -= other", "made ^= other"):
                    self.assertRaises(TypeError, exec, operator, {"made": made, "other": other})
                if not isinstance(other, tuple):
                    self.assertFalse(made == other or other == made)
            self.assertRaisesRegex(TypeError, "write a list", lambda: made == (1, 2, 3))
            self.assertRaisesRegex(TypeError, "write a list", lambda: (1,) == made)

    def test_items_of_a_python_set_are_members(self):
        made = RangeSet(range(1, 6))
        self.assertFalse(made == {(1, 5)} or made == {range(1, 6)} or made >= {Run(1, 5)} or made <= {(1, 9)})
        for call in (lambda: made | {(1, 5)}, lambda: {Run(1, 5)} ^ made, lambda: {range(3)} - made):
            self.assertRaises(TypeError, call)
        self.assertEqual(made.union({(7, 9)}), [(1, 5), (7, 9)])

    def test_unhashable_items(self):
        self.assertFalse(RangeSet([1]) == [[1, 2, 3]] or RangeSet([1]) == [{}])
        self.assertRaises(TypeError, lambda: RangeSet([1]) <= [{}])

    def test_hashes(self):
        for kind in KINDS:
            self.assertRaises(TypeError, hash, kind.made())
            numbers = [kind.least, kind.least + 1, kind.greatest]
            plain = frozenset(map(kind.value, numbers))
            self.assertEqual(hash(kind.made(numbers, kind.frozen)), hash(plain))
        self.assertEqual({FrozenDateSet([date.min]): 1}[frozenset([date.min])], 1)

    def test_a_frozen_set_has_no_call_that_changes_it(self):
        for kind in KINDS:
            for name in ("add", "discard", "remove", "pop", "clear", "update", "__ior__", "difference_update"):
                self.assertFalse(hasattr(kind.frozen, name))


if __name__ == "__main__":
    unittest.main()
