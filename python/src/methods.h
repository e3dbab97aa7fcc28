/* The methods of a set that are in other files than its type, and what Python says about the public ones. */
#ifndef RANGE_SET_METHODS_H
#define RANGE_SET_METHODS_H

bool add_changing(PyObject *module);

PyObject *set_combine(PyObject *self, PyObject *arguments);
PyObject *set_combine_many(PyObject *self, PyObject *arguments);
PyObject *set_at_least(PyObject *self, PyObject *arguments);
PyObject *set_change(PyObject *self, PyObject *arguments);
PyObject *set_complement(PyObject *self, PyObject *nothing);
PyObject *set_take(PyObject *self, PyObject *other);
PyObject *set_clear(PyObject *self, PyObject *nothing);
PyObject *set_equal(PyObject *self, PyObject *other);
PyObject *set_is_subset(PyObject *self, PyObject *other);
PyObject *set_is_disjoint(PyObject *self, PyObject *other);
PyObject *set_order(PyObject *self, PyObject *other);

#define ALGEBRA_METHODS                                                                                                        \
    {"_combine", set_combine, METH_VARARGS, "_combine($self, how, other, /)\n--\n\nReturns what an operation makes of two sets."}, \
        {"_combine_many", set_combine_many, METH_VARARGS,                                                                      \
         "_combine_many($self, how, sets, /)\n--\n\nReturns what an operation makes of a list of sets."},                      \
        {"_at_least", set_at_least, METH_VARARGS,                                                                              \
         "_at_least($self, k, sets, /)\n--\n\nReturns the values that are in at least k sets of a list."},                     \
        {"_change", set_change, METH_VARARGS,                                                                                  \
         "_change($self, how, other, /)\n--\n\nReplaces the set with what an operation makes of both, and returns whether it changed."}, \
        {"_complement", set_complement, METH_NOARGS, "_complement($self, /)\n--\n\nReturns the complement."},                  \
        {"_take", set_take, METH_O, "_take($self, other, /)\n--\n\nMoves the members of another set here, and empties it."},   \
        {"_clear", set_clear, METH_NOARGS, "_clear($self, /)\n--\n\nRemoves all members."},                                    \
        {"_equal", set_equal, METH_O, "_equal($self, other, /)\n--\n\nReturns whether both sets have the same members."},      \
        {"_is_subset", set_is_subset, METH_O, "_is_subset($self, other, /)\n--\n\nReturns whether the other set has all members."}, \
        {"_is_disjoint", set_is_disjoint, METH_O, "_is_disjoint($self, other, /)\n--\n\nReturns whether the other set has no member."}, \
    {                                                                                                                          \
        "_order", set_order, METH_O, "_order($self, other, /)\n--\n\nReturns -1, 0 or 1, by the lists of members."             \
    }

PyObject *set_filled(PyObject *self, PyObject *arguments);
PyObject *set_filled_by(PyObject *self, PyObject *arguments);
PyObject *set_has_numbers(PyObject *self, PyObject *arguments);
PyObject *set_ends_bytes(PyObject *self, PyObject *nothing);
PyObject *set_values_bytes(PyObject *self, PyObject *nothing);

#define ARRAY_METHODS                                                                                                          \
    {"_filled", set_filled, METH_VARARGS,                                                                                      \
     "_filled($self, items, is_adding, are_values, /)\n--\n\nReturns the set of the items of an iterable, and whether there "  \
     "were others that no set has."},                                                                                          \
        {"_filled_by", set_filled_by, METH_VARARGS,                                                                            \
         "_filled_by($self, data, size, is_signed, are_ends, is_adding, /)\n--\n\nThe same for the numbers of an array."},     \
        {"_has_numbers", set_has_numbers, METH_VARARGS,                                                                        \
         "_has_numbers($self, data, size, is_signed, /)\n--\n\nReturns a byte for each number: whether it is a member."},      \
        {"_ends_bytes", set_ends_bytes, METH_NOARGS,                                                                           \
         "_ends_bytes($self, /)\n--\n\nReturns both ends of each run as numbers of the set's width."},                        \
    {                                                                                                                          \
        "_values_bytes", set_values_bytes, METH_NOARGS, "_values_bytes($self, /)\n--\n\nReturns the members as such numbers." \
    }

PyObject *set_to_bytes(PyObject *self, PyObject *nothing);
PyObject *set_of_bytes(PyObject *self, PyObject *data);

#define TO_BYTES_DOC                                                                                                           \
    "to_bytes($self, /)\n--\n\n"                                                                                              \
    "Returns the set as bytes, which `from_bytes` reads.\n\n"                                                                  \
    "Equal sets of a type have equal bytes, on every machine. docs/FORMAT.md describes them. They have the\n"                  \
    "ranks of the members, counted from the least value of the type, and the number of their bits: 32, 64\n"                   \
    "or 128.\n\n"                                                                                                              \
    ">>> RangeSet(range(-1, 301)).to_bytes().hex(' ')\n'f5 52 53 42 01 40 01 ff ff ff ff ff ff ff ff 7f ad 02'"

#define BYTES_METHODS                                                                                                          \
    {"to_bytes", set_to_bytes, METH_NOARGS, TO_BYTES_DOC}, {                                                                   \
        "_of_bytes", set_of_bytes, METH_O, "_of_bytes($self, data, /)\n--\n\nReturns the set of this type that has these bytes." \
    }

#define COUNT_DOC                                                                                                              \
    "count($self, values=None, last=None, /)\n--\n\n"                                                                          \
    "Returns the number of members, or of those among some values, however many they are.\n\n"                                 \
    "`count(1, 5)`, `count(range(1, 6))` and `count(Run(1, 5))` count from 1 to 5.\n\n"                                        \
    ">>> RangeSet([range(9, 12), 20]).count()\n4\n>>> RangeSet([range(9, 12), 20]).count(10, 30)\n3"
#define RANK_DOC                                                                                                               \
    "rank($self, value, /)\n--\n\nReturns the number of members below a value, which need not be a member.\n\n"                \
    ">>> RangeSet([3, 5, 7]).rank(6)\n2"
#define FIRST_DOC                                                                                                              \
    "first($self, /)\n--\n\nReturns the least member, or None if the set is empty.\n\n>>> RangeSet([5, -3]).first()\n-3"
#define LAST_DOC                                                                                                               \
    "last($self, /)\n--\n\nReturns the greatest member, or None if the set is empty.\n\n>>> RangeSet([5, -3]).last()\n5"
#define RUN_OF_DOC                                                                                                             \
    "run_of($self, value, /)\n--\n\nReturns the run that contains a value, or None if the value is not a member.\n\n"          \
    ">>> RangeSet([range(9, 12)]).run_of(10)\nRun(first=9, last=11)"
#define GAP_OF_DOC                                                                                                             \
    "gap_of($self, value, /)\n--\n\nReturns the gap that contains a value, or None if the value is a member.\n\n"              \
    ">>> RangeSet([range(5), 9]).gap_of(7)\nRun(first=5, last=8)"
#define NEXT_RUN_DOC                                                                                                           \
    "next_run($self, value=least, /)\n--\n\n"                                                                                  \
    "Returns the run that contains a value, or else the first run after it, or None.\n\n"                                      \
    "Without a value, it starts from the least one of the type.\n\n"                                                           \
    ">>> RangeSet([range(5), 9]).next_run(7)\nRun(first=9, last=9)"
#define PREV_RUN_DOC                                                                                                           \
    "prev_run($self, value=greatest, /)\n--\n\n"                                                                               \
    "Returns the run that contains a value, or else the last run before it, or None.\n\n"                                      \
    "Without a value, it starts from the greatest one of the type.\n\n"                                                        \
    ">>> RangeSet([range(5), 9]).prev_run(7)\nRun(first=0, last=4)"
#define RUN_AFTER_DOC                                                                                                          \
    "run_after($self, value, /)\n--\n\nReturns the first run that starts after a value, or None.\n\n"                          \
    ">>> RangeSet([range(5), 9]).run_after(0)\nRun(first=9, last=9)"
#define RUN_BEFORE_DOC                                                                                                         \
    "run_before($self, value, /)\n--\n\nReturns the last run that ends before a value, or None.\n\n"                           \
    ">>> RangeSet([range(5), 9]).run_before(9)\nRun(first=0, last=4)"
#define NEXT_GAP_DOC                                                                                                           \
    "next_gap($self, value=least, /)\n--\n\n"                                                                                  \
    "Returns the gap that contains a value, or else the first gap after it, or None.\n\n"                                      \
    ">>> RangeSet([range(5), 9]).next_gap(3)\nRun(first=5, last=8)"
#define PREV_GAP_DOC                                                                                                           \
    "prev_gap($self, value=greatest, /)\n--\n\n"                                                                               \
    "Returns the gap that contains a value, or else the last gap before it, or None.\n\n"                                      \
    ">>> RangeSet([range(5), 9]).prev_gap(9)\nRun(first=5, last=8)"
#define GAP_AFTER_DOC                                                                                                          \
    "gap_after($self, value, /)\n--\n\nReturns the first gap that starts after a value, or None.\n\n"                          \
    ">>> RangeSet([range(5), 9]).gap_after(0)\nRun(first=5, last=8)"
#define GAP_BEFORE_DOC                                                                                                         \
    "gap_before($self, value, /)\n--\n\nReturns the last gap that ends before a value, or None.\n\n"                           \
    ">>> RangeSet([range(5), 9]).gap_before(9)\nRun(first=5, last=8)"
#define FIRST_RUN_OF_DOC                                                                                                       \
    "first_run_of($self, /, length=1, start=least)\n--\n\n"                                                                    \
    "Returns the first run with at least `length` members at or after `start`, or None.\n\n"                                  \
    "If that run starts before `start`, returns only its part at or after `start`. In the set of what is\n"                    \
    "free, this finds room.\n\n"                                                                                              \
    ">>> RangeSet([range(5), 7, range(20, 30)]).first_run_of(3, 3)\nRun(first=20, last=29)"
#define FIRST_GAP_DOC                                                                                                          \
    "first_gap($self, /, length=1, start=least)\n--\n\n"                                                                       \
    "Returns the first gap with at least `length` values at or after `start`, or None.\n\n"                                    \
    "If that gap starts before `start`, returns only its part at or after `start`.\n\n"                                        \
    ">>> RangeSet([range(5), 7, range(20, 30)]).first_gap(4, 0)\nRun(first=8, last=19)"

#endif
