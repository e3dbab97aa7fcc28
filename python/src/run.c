/* A Run: two ends. */
#include "core.h"

PyTypeObject *run_type;

typedef struct run {
    PyObject_HEAD
    PyObject *first;
    PyObject *last;
} run;

bool run_ends(PyObject *object, PyObject **first, PyObject **last) {
    if (Py_TYPE(object) != run_type) {
        return false;
    }
    *first = ((run *)object)->first;
    *last = ((run *)object)->last;
    return true;
}

/* Returns a Run of two values, which it takes over. Either may be NULL, and then the result is too. */
static PyObject *run_of_two(PyObject *first, PyObject *last) {
    run *made = first && last ? PyObject_New(run, run_type) : NULL;
    if (!made) {
        Py_XDECREF(first);
        Py_XDECREF(last);
        return NULL;
    }
    made->first = first;
    made->last = last;
    return (PyObject *)made;
}

PyObject *run_made(element *of, span it) {
    PyObject *first = value_of(of, it.first);
    return run_of_two(first, first ? value_of(of, it.last) : NULL);
}

static PyObject *run_new(PyTypeObject *Py_UNUSED(type), PyObject *arguments, PyObject *names) {
    static char *parameters[] = {"first", "last", NULL};
    PyObject *first, *last;
    if (!PyArg_ParseTupleAndKeywords(arguments, names, "OO:Run", parameters, &first, &last)) {
        return NULL;
    }
    Py_INCREF(first);
    Py_INCREF(last);
    return run_of_two(first, last);
}

static void run_dealloc(PyObject *self) {
    PyTypeObject *type = Py_TYPE(self);
    Py_DECREF(((run *)self)->first);
    Py_DECREF(((run *)self)->last);
    PyObject_Free(self);
    Py_DECREF(type);
}

/* Returns the two ends as a tuple. */
static PyObject *run_pair(PyObject *self) {
    return PyTuple_Pack(2, ((run *)self)->first, ((run *)self)->last);
}

static PyObject *run_iter(PyObject *self) {
    PyObject *pair = run_pair(self), *made = pair ? PyObject_GetIter(pair) : NULL;
    Py_XDECREF(pair);
    return made;
}

static PyObject *run_repr(PyObject *self) {
    return PyUnicode_FromFormat("Run(first=%R, last=%R)", ((run *)self)->first, ((run *)self)->last);
}

static Py_hash_t run_hash(PyObject *self) {
    PyObject *pair = run_pair(self);
    Py_hash_t hash = pair ? PyObject_Hash(pair) : -1;
    Py_XDECREF(pair);
    return hash;
}

static PyObject *run_compare(PyObject *self, PyObject *other, int how) {
    if (Py_TYPE(other) != run_type || Py_TYPE(self) != run_type) {
        Py_INCREF(Py_NotImplemented);
        return Py_NotImplemented;
    }
    PyObject *left = run_pair(self), *right = run_pair(other);
    PyObject *made = left && right ? PyObject_RichCompare(left, right, how) : NULL;
    Py_XDECREF(left);
    Py_XDECREF(right);
    return made;
}

/* Returns whether a value is between two others, or -1. What cannot be compared raises TypeError only if it is not hashable. */
static int is_between(PyObject *first, PyObject *value, PyObject *last) {
    int is_in = PyObject_RichCompareBool(first, value, Py_LE);
    is_in = is_in == 1 ? PyObject_RichCompareBool(value, last, Py_LE) : is_in;
    if (is_in < 0 && PyErr_ExceptionMatches(PyExc_TypeError)) {
        PyErr_Clear();
        return PyObject_Hash(value) == -1 ? -1 : 0;
    }
    return is_in;
}

static int run_contains(PyObject *self, PyObject *value) {
    run *it = (run *)self;
    if (PyLong_Check(it->first)) {
        PyObject *number = int_equal_to(value);
        int is_in = number ? is_between(it->first, number, it->last) : PyErr_Occurred() ? -1 : 0;
        Py_XDECREF(number);
        return is_in;
    }
    if (PyUnicode_Check(it->first) && PyUnicode_Check(value) && PyUnicode_GetLength(it->first) != PyUnicode_GetLength(value)) {
        return 0;
    }
    return is_between(it->first, value, it->last);
}

static PyObject *run_reduce(PyObject *self, PyObject *Py_UNUSED(nothing)) {
    return Py_BuildValue("O(OO)", run_type, ((run *)self)->first, ((run *)self)->last);
}

static PyObject *run_values(PyObject *self, PyObject *Py_UNUSED(nothing)) {
    PyObject *one = PyLong_FromLong(1), *stop = one ? PyNumber_Add(((run *)self)->last, one) : NULL;
    PyObject *made = stop ? PyObject_CallFunctionObjArgs((PyObject *)&PyRange_Type, ((run *)self)->first, stop, NULL) : NULL;
    Py_XDECREF(one);
    Py_XDECREF(stop);
    return made;
}

static PyObject *run_size(PyObject *self, void *Py_UNUSED(nothing)) {
    PyObject *values = run_values(self, NULL), *start = values ? PyObject_GetAttrString(values, "start") : NULL;
    PyObject *stop = start ? PyObject_GetAttrString(values, "stop") : NULL;
    int is_empty = stop ? PyObject_RichCompareBool(stop, start, Py_LT) : -1;
    PyObject *made = is_empty < 0 ? NULL : is_empty ? PyLong_FromLong(0) : PyNumber_Subtract(stop, start);
    Py_XDECREF(values);
    Py_XDECREF(start);
    Py_XDECREF(stop);
    return made;
}

static PyObject *run_end(PyObject *self, void *is_last) {
    PyObject *end = is_last ? ((run *)self)->last : ((run *)self)->first;
    Py_INCREF(end);
    return end;
}

static PyMethodDef methods[] = {
    {"values", run_values, METH_NOARGS,
     "values($self, /)\n--\n\nReturns the values as a `range`, if they are ints.\n\n>>> Run(1, 3).values()\nrange(1, 4)"},
    {"__reduce__", run_reduce, METH_NOARGS, NULL},
    SUBSCRIPT,
    {NULL, NULL, 0, NULL},
};

static PyGetSetDef members[] = {
    {"first", run_end, NULL, "The first value.", NULL},
    {"last", run_end, NULL, "The last value, which the run has too.", (void *)1},
    {"size", run_size, NULL, "The number of values, if they are ints: 0 if the last is below the first.", NULL},
    {NULL, NULL, NULL, NULL, NULL},
};

static PyType_Slot slots[] = {
    {Py_tp_doc, "Run(first, last)\n--\n\n"
                "A run of members, or a gap between runs: all values from first to last, both included.\n\n"
                "`5 in run` asks about the values. A run unpacks into its ends. It has no length, since an int may be\n"
                "too great for `len`. It equals only other runs with the same ends, and does not change.\n\n"
                ">>> first, last = Run(10, 20)\n>>> 15 in Run(10, 20)\nTrue\n>>> Run(10, 20).size\n11"},
    {Py_tp_new, run_new},
    {Py_tp_dealloc, run_dealloc},
    {Py_tp_iter, run_iter},
    {Py_tp_repr, run_repr},
    {Py_tp_hash, run_hash},
    {Py_tp_richcompare, run_compare},
    {Py_sq_contains, run_contains},
    {Py_tp_methods, methods},
    {Py_tp_getset, members},
    {0, NULL},
};

static PyType_Spec spec = {"range_set.Run", sizeof(run), 0, Py_TPFLAGS_DEFAULT, slots};

bool add_runs(PyObject *module) {
    if (!add_type(module, "Run", &spec, NULL, &run_type)) {
        return false;
    }
    PyObject *names = Py_BuildValue("(ss)", "first", "last");
    bool is_done = names && PyObject_SetAttrString((PyObject *)run_type, "__match_args__", names) == 0;
    Py_XDECREF(names);
    return is_done;
}
