/* The values that an argument stands for, and runs that wait to become a set. */
#include "core.h"

/* Returns what a span of two objects has, if at least one of them does not fit. */
static ends ends_outside(element *of, PyObject *first, PyObject *last, fit first_fit, fit last_fit, mode how, span *out) {
    int is_empty = PyObject_RichCompareBool(last, first, Py_LT);
    if (is_empty) {
        return is_empty < 0 ? NO_ENDS : NONE;
    }
    if (how == ADD) {
        refuse(of, first_fit == FITS ? last : first, false);
        return NO_ENDS;
    }
    if (how == ASK || first_fit == ABOVE || last_fit == BELOW) {
        return OUTSIDE;
    }
    out->first = first_fit == BELOW ? 0 : out->first;
    out->last = last_fit == ABOVE ? of->top : out->last;
    return SOME_OUTSIDE;
}

/* Finds the values from one object to another. Unless `is_strict`, these may be any hashable objects. */
static ends ends_between(element *of, PyObject *first, PyObject *last, mode how, bool is_strict, span *out) {
    fit first_fit = rank_of(of, first, is_strict, &out->first);
    fit last_fit = first_fit == FAILED ? FAILED : rank_of(of, last, is_strict, &out->last);
    if (last_fit == FAILED) {
        return NO_ENDS;
    }
    if (first_fit == FOREIGN || last_fit == FOREIGN) {
        return OUTSIDE;
    }
    if (first_fit == FITS && last_fit == FITS) {
        return out->first <= out->last ? SOME : NONE;
    }
    return ends_outside(of, first, last, first_fit, last_fit, how, out);
}

ends ends_of_two(element *of, PyObject *first, PyObject *last, mode how, span *out) {
    if (how != ADD) {
        return ends_between(of, first, last, how, true, out);
    }
    if (!rank_in(of, first, &out->first) || !rank_in(of, last, &out->last)) {
        return NO_ENDS;
    }
    return out->first <= out->last ? SOME : NONE;
}

/* Reads an attribute of a range as a new reference: its start, or what comes before its stop. */
static PyObject *bound_of(PyObject *range, const char *name, long less) {
    PyObject *bound = PyObject_GetAttrString(range, name), *number = PyLong_FromLong(less);
    PyObject *made = bound && number ? PyNumber_Subtract(bound, number) : NULL;
    Py_XDECREF(bound);
    Py_XDECREF(number);
    return made;
}

static ends ends_of_range(element *of, PyObject *range, mode how, span *out) {
    PyObject *step = PyObject_GetAttrString(range, "step");
    long each = step ? PyLong_AsLong(step) : -1;
    Py_XDECREF(step);
    if (each != 1) {
        PyErr_Clear();
        PyErr_SetString(PyExc_ValueError, "a range of values has step 1; update() takes the values of any range");
        return NO_ENDS;
    }
    if (of->kind) {
        if (how == ADD) {
            refuse(of, range, true);
            return NO_ENDS;
        }
        return OUTSIDE;
    }
    PyObject *first = bound_of(range, "start", 0), *last = bound_of(range, "stop", 1);
    ends found = first && last ? ends_between(of, first, last, how, true, out) : NO_ENDS;
    Py_XDECREF(first);
    Py_XDECREF(last);
    return found;
}

/* Finds the ends of a tuple or a list of two. */
static ends ends_of_pair(element *of, PyObject *pair, mode how, span *out) {
    PyObject *first = PySequence_GetItem(pair, 0), *last = first ? PySequence_GetItem(pair, 1) : NULL;
    ends found = last ? ends_between(of, first, last, how, how == ADD, out) : NO_ENDS;
    Py_XDECREF(first);
    Py_XDECREF(last);
    return found;
}

/* Finds the ends of an object that the element itself knows, such as a network of addresses. */
static ends ends_of_known(element *of, PyObject *object, mode how, span *out) {
    PyObject *pair = PyObject_CallFunctionObjArgs(of->ends, object, NULL);
    ends found = OUTSIDE;
    if (!pair) {
        return NO_ENDS;
    }
    if (PyTuple_Check(pair) && PyTuple_Size(pair) == 2) {
        found = ends_between(of, PyTuple_GetItem(pair, 0), PyTuple_GetItem(pair, 1), how, how == ADD, out);
    } else if (how == ADD) {
        refuse(of, object, true);
        found = NO_ENDS;
    } else if (PyObject_Hash(object) == -1) {
        found = NO_ENDS;
    }
    Py_DECREF(pair);
    return found;
}

ends ends_of(element *of, PyObject *object, mode how, bool is_item, span *out) {
    PyObject *first, *last;
    if (!PyLong_Check(object)) {
        if (run_ends(object, &first, &last)) {
            return ends_between(of, first, last, how, true, out);
        }
        if (Py_TYPE(object) == &PyRange_Type) {
            return ends_of_range(of, object, how, out);
        }
        if ((PyTuple_Check(object) && PyTuple_Size(object) == 2) || (is_item && PyList_Check(object) && PyList_Size(object) == 2)) {
            return ends_of_pair(of, object, how, out);
        }
    }
    fit found = rank_of(of, object, how == ADD && !of->ends, &out->first);
    if (found == FOREIGN && of->ends) {
        return ends_of_known(of, object, how, out);
    }
    if (how == ADD && (found == BELOW || found == ABOVE)) {
        found = refuse(of, object, false);
    }
    out->last = out->first;
    return found == FAILED ? NO_ENDS : found == FITS ? SOME : OUTSIDE;
}

/* ---- Runs that wait. */

void runs_free(runs *it) {
    PyMem_Free(it->data);
    it->data = NULL;
}

/* Stores the last run. */
static bool store(runs *to) {
    if (to->number == to->room) {
        size_t room = to->room ? 2 * to->room : BLOCK;
        char *data = PyMem_Realloc(to->data, room * to->calls->run_size);
        if (!data) {
            PyErr_NoMemory();
            return false;
        }
        to->data = data;
        to->room = room;
    }
    to->calls->put(to->data, to->number++, to->last);
    return true;
}

bool runs_add(runs *to, span run) {
    if (to->has_last) {
        bool touches = to->last.last == ~(wide)0 || run.first <= to->last.last + 1;
        if (run.first >= to->last.first && touches) {
            to->last.last = run.last > to->last.last ? run.last : to->last.last;
            return true;
        }
        if (!store(to)) {
            return false;
        }
        to->is_mixed = to->is_mixed || run.first < to->last.first;
    }
    to->last = run;
    to->has_last = true;
    return true;
}

/* Sorts runs by a byte of their first values, from one array to another. Returns false, and moves nothing, if that byte is the
   same in all of them. */
static bool sort_by(size_t byte, const char *from, char *to, size_t number, size_t size) {
    size_t places[257] = {0};
    for (size_t at = 0; at < number; at++) {
        places[(unsigned char)from[at * size + byte] + 1]++;
    }
    if (places[(unsigned char)from[byte] + 1] == number) {
        return false;
    }
    for (size_t digit = 1; digit < 256; digit++) {
        places[digit] += places[digit - 1];
    }
    for (size_t at = 0; at < number; at++) {
        const char *run = from + at * size;
        memcpy(to + places[(unsigned char)run[byte]]++ * size, run, size);
    }
    return true;
}

/* Sorts runs by their first values, which the library then adds faster. Leaves them as they are if there is no memory for it. A
   run begins with its first value, which begins with its lowest byte. */
static void sort(runs *it) {
    size_t size = it->calls->run_size;
    char *other = PyMem_Malloc(it->number * size);
    for (size_t byte = 0; other && byte < size / 2; byte++) {
        if (sort_by(byte, it->data, other, it->number, size)) {
            char *sorted = other;
            other = it->data;
            it->data = sorted;
        }
    }
    PyMem_Free(other);
}

bool runs_end(runs *from, set *to) {
    bool is_done = !from->has_last || store(from);
    if (is_done && from->is_mixed) {
        sort(from);
    }
    if (is_done && from->number) {
        is_done = succeeded(from->calls->from_runs(&to->handle, from->data, from->number));
    }
    runs_free(from);
    return is_done;
}
