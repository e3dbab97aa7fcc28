"""The examples in docstrings."""

import datetime
import doctest
import enum
import ipaddress
import typing
import unittest

import range_set

NAMES = {name: getattr(range_set, name) for name in range_set.__all__}
NAMES.update(date=datetime.date, ip_address=ipaddress.ip_address, ip_network=ipaddress.ip_network)
NAMES.update(Enum=enum.Enum, NamedTuple=typing.NamedTuple)


def docstrings():
    """Yields the name and the text of each docstring that a user of the package sees."""
    yield "range_set", range_set.__doc__
    for name in range_set.__all__:
        it = getattr(range_set, name)
        yield name, it.__doc__
        for inner in dir(it):
            if not inner.startswith("_") or inner in ("__getitem__", "__invert__"):
                yield f"{name}.{inner}", getattr(it, inner).__doc__


class Docstrings(unittest.TestCase):
    def test_each_public_name_has_one(self):
        for name, text in docstrings():
            self.assertTrue(text and text.strip()[-1] not in " ,", name)

    def test_examples(self):
        parser, runner = doctest.DocTestParser(), doctest.DocTestRunner()
        for name, text in docstrings():
            runner.run(parser.get_doctest(text, dict(NAMES), name, None, 0))
        failed, tried = runner.summarize(verbose=False)
        self.assertEqual(failed, 0)
        self.assertGreater(tried, 50)


if __name__ == "__main__":
    unittest.main()
