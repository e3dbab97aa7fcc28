/* Set algebra, comparisons, and the type of sets that change. */
#include "core.h"
#include "methods.h"

PyTypeObject *changing_type;

/* Returns another set of the same element, or raises TypeError and returns NULL. */
static set *like(set *self, PyObject *other) {
    if (!PyObject_TypeCheck(other, set_type)) {
        PyErr_SetString(PyExc_TypeError, "the other set is a range set");
        return NULL;
    }
    element *mine = self->of, *theirs = ((set *)other)->of;
    if (mine == theirs || (mine->calls == theirs->calls && mine->top == theirs->top && mine->least == theirs->least)) {
        return (set *)other;
    }
    PyErr_SetString(PyExc_ValueError, "the sets have values of different types");
    return NULL;
}

/* Reads the number of an operation and another set. */
static set *operation(set *self, PyObject *arguments, int *how) {
    PyObject *other;
    if (!PyArg_ParseTuple(arguments, "iO", how, &other)) {
        return NULL;
    }
    if (*how < UNION || *how > SYMMETRIC_DIFFERENCE) {
        PyErr_SetString(PyExc_ValueError, "there is no such operation");
        return NULL;
    }
    return like(self, other);
}

/* Returns a set, or drops it and returns NULL if the call that made it failed. */
static PyObject *made_by(set *made, uint32_t status) {
    if (!succeeded(status)) {
        Py_CLEAR(made);
    }
    return (PyObject *)made;
}

PyObject *set_combine(PyObject *self, PyObject *arguments) {
    set *it = (set *)self;
    int how;
    set *other = operation(it, arguments, &how), *made = other ? set_made(Py_TYPE(self), it->of) : NULL;
    return made ? made_by(made, it->of->calls->combine[how](&made->handle, &it->handle, &other->handle)) : NULL;
}

PyObject *set_complement(PyObject *self, PyObject *Py_UNUSED(nothing)) {
    set *it = (set *)self, *made = set_made(Py_TYPE(self), it->of);
    const calls *by = it->of->calls;
    uint32_t status = made ? by->complement(&made->handle, &it->handle) : RSB_UNCHANGED;
    if (made && status == RSB_CHANGED && it->of->top < by->greatest) {
        status = by->remove_range(&made->handle, it->of->top + 1, by->greatest);
    }
    return made ? made_by(made, status) : NULL;
}

/* Changes a set by one run, which takes no time for the rest of the set. */
static uint32_t change_by_run(set *self, int how, span run) {
    const calls *by = self->of->calls;
    return (how == UNION ? by->insert_range : by->remove_range)(&self->handle, run.first, run.last);
}

PyObject *set_change(PyObject *self, PyObject *arguments) {
    set *it = (set *)self;
    int how, is_changed;
    set *other = operation(it, arguments, &how);
    span run;
    if (!other) {
        return NULL;
    }
    bool is_one = (how == UNION || how == DIFFERENCE) && it != other && it->of->calls->run_count(&other->handle) == 1;
    if (is_one && it->of->calls->next_run(&other->handle, 0, &run)) {
        is_changed = changed(it, change_by_run(it, how, run));
    } else {
        is_changed = changed(it, it->of->calls->change[how](&it->handle, &other->handle));
    }
    return is_changed < 0 ? NULL : PyBool_FromLong(is_changed);
}

PyObject *set_take(PyObject *self, PyObject *other) {
    set *it = (set *)self, *from = like(it, other);
    if (!from) {
        return NULL;
    }
    if (it != from) {
        it->of->calls->free(&it->handle);
        it->handle = from->handle;
        memset(&from->handle, 0, sizeof from->handle);
        it->changes++;
        from->changes++;
    }
    Py_RETURN_NONE;
}

PyObject *set_clear(PyObject *self, PyObject *Py_UNUSED(nothing)) {
    set *it = (set *)self;
    it->changes += it->of->calls->run_count(&it->handle) > 0;
    it->of->calls->clear(&it->handle);
    Py_RETURN_NONE;
}

/* ---- Any number of sets. */

/* Makes a list of copies of sets of a Python list. */
static bool listed(set *self, PyObject *sets, handles *list) {
    for (Py_ssize_t at = 0; at < PyList_Size(sets); at++) {
        set *each = like(self, PyList_GetItem(sets, at));
        if (!each || !succeeded(self->of->calls->sets_add(list, &each->handle))) {
            self->of->calls->sets_free(list);
            return false;
        }
    }
    return true;
}

PyObject *set_combine_many(PyObject *self, PyObject *arguments) {
    set *it = (set *)self, *made;
    int how;
    PyObject *sets;
    handles list = {{NULL}};
    if (!PyArg_ParseTuple(arguments, "iO!", &how, &PyList_Type, &sets)) {
        return NULL;
    }
    if ((how != UNION && how != INTERSECTION && how != SYMMETRIC_DIFFERENCE) || PyList_Size(sets) == 0) {
        PyErr_SetString(PyExc_ValueError, "there is no such operation");
        return NULL;
    }
    made = listed(it, sets, &list) ? set_made(Py_TYPE(self), it->of) : NULL;
    uint32_t status = made ? it->of->calls->combine_many[how](&made->handle, &list) : RSB_UNCHANGED;
    it->of->calls->sets_free(&list);
    return made ? made_by(made, status) : NULL;
}

PyObject *set_at_least(PyObject *self, PyObject *arguments) {
    set *it = (set *)self, *made;
    const calls *by = it->of->calls;
    Py_ssize_t k;
    PyObject *sets;
    handles list = {{NULL}};
    if (!PyArg_ParseTuple(arguments, "nO!", &k, &PyList_Type, &sets)) {
        return NULL;
    }
    made = listed(it, sets, &list) ? set_made(Py_TYPE(self), it->of) : NULL;
    uint32_t status = made ? by->at_least(&made->handle, &list, (size_t)k) : RSB_UNCHANGED;
    if (made && status == RSB_CHANGED && it->of->top < by->greatest) {
        status = by->remove_range(&made->handle, it->of->top + 1, by->greatest);
    }
    by->sets_free(&list);
    return made ? made_by(made, status) : NULL;
}

/* ---- Comparisons. */

#define COMPARES(name, call, result)                                                                                           \
    PyObject *name(PyObject *self, PyObject *object) {                                                                         \
        set *it = (set *)self, *other = like(it, object);                                                                      \
        return other ? result(it->of->calls->call(&it->handle, &other->handle)) : NULL;                                        \
    }
COMPARES(set_equal, equal, PyBool_FromLong)
COMPARES(set_is_subset, is_subset, PyBool_FromLong)
COMPARES(set_is_disjoint, is_disjoint, PyBool_FromLong)
COMPARES(set_order, order, PyLong_FromLong)

/* ---- Sets that change. */

/* Reads the arguments of a call on one value, range or run. */
static ends read_ends(set *self, PyObject *arguments, mode how, span *out) {
    PyObject *values, *last = NULL;
    if (!PyArg_UnpackTuple(arguments, how == ADD ? "add" : "discard", 1, 2, &values, &last)) {
        return NO_ENDS;
    }
    return last && last != Py_None ? ends_of_two(self->of, values, last, how, out)
                                   : ends_of(self->of, values, how, false, out);
}

static PyObject *set_add(PyObject *self, PyObject *arguments) {
    set *it = (set *)self;
    span run;
    ends found = read_ends(it, arguments, ADD, &run);
    if (found != SOME) {
        return found == NO_ENDS ? NULL : PyBool_FromLong(0);
    }
    int is_new = changed(it, it->of->calls->insert_range(&it->handle, run.first, run.last));
    return is_new < 0 ? NULL : PyBool_FromLong(is_new);
}

static PyObject *set_discard(PyObject *self, PyObject *arguments) {
    set *it = (set *)self;
    span run;
    ends found = read_ends(it, arguments, HELD, &run);
    if (found != SOME && found != SOME_OUTSIDE) {
        return found == NO_ENDS ? NULL : PyBool_FromLong(0);
    }
    int was_member = changed(it, it->of->calls->remove_range(&it->handle, run.first, run.last));
    return was_member < 0 ? NULL : PyBool_FromLong(was_member);
}

static PyMethodDef methods[] = {
    {"add", set_add, METH_VARARGS,
     "add($self, values, last=None, /)\n--\n\n"
     "Adds a value or a run, and returns whether the set changed.\n\n"
     "`add(1, 5)`, `add((1, 5))`, `add(range(1, 6))` and `add(Run(1, 5))` add the values from 1 to 5. If the\n"
     "last value is below the first, there is nothing to add.\n\n"
     ">>> open_hours = RangeSet()\n>>> open_hours.add(9, 17)\nTrue\n>>> open_hours.add(12)\nFalse"},
    {"discard", set_discard, METH_VARARGS,
     "discard($self, values, last=None, /)\n--\n\n"
     "Removes those of some values that are members, and returns whether the set changed.\n\n"
     "It takes the same arguments as `add`, and values that no set can have.\n\n"
     ">>> open_hours = RangeSet(range(9, 18))\n>>> open_hours.discard(12, 13)\nTrue\n>>> str(open_hours)\n'9..=11, 14..=17'"},
    {NULL, NULL, 0, NULL},
};

static PyType_Slot slots[] = {
    {Py_tp_doc, "A set that changes."},
    {Py_tp_methods, methods},
    {0, NULL},
};

static PyType_Spec spec = {"range_set._core.Changing", sizeof(set), 0, Py_TPFLAGS_DEFAULT | Py_TPFLAGS_BASETYPE, slots};

bool add_changing(PyObject *module) {
    PyObject *bases = PyTuple_Pack(1, set_type);
    bool is_done = bases && add_type(module, "Changing", &spec, bases, &changing_type);
    Py_XDECREF(bases);
    return is_done;
}
