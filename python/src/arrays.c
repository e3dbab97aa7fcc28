/* Many values at once: from iterables and arrays, and to arrays. Numbers of an array have the order of bytes of the machine. */
#include "core.h"
#include "methods.h"

/* Adds what an item of an iterable stands for. Returns false if an exception is set. */
static bool add_item(set *self, PyObject *item, bool is_adding, bool are_values, runs *to, bool *has_others) {
    span run;
    ends found;
    if (are_values && !PyLong_Check(item)) {
        fit place = rank_of(self->of, item, is_adding, &run.first);
        if (is_adding && (place == BELOW || place == ABOVE)) {
            place = refuse(self->of, item, false);
        }
        run.last = run.first;
        found = place == FAILED ? NO_ENDS : place == FITS ? SOME : OUTSIDE;
    } else {
        found = ends_of(self->of, item, is_adding ? ADD : HELD, true, &run);
    }
    *has_others = *has_others || found == OUTSIDE || found == SOME_OUTSIDE;
    return found == SOME || found == SOME_OUTSIDE ? runs_add(to, run) : found != NO_ENDS;
}

/* Returns a set of runs, and whether there were others, or frees them and returns NULL if `is_done` is false. */
static PyObject *filled(set *self, runs *from, bool is_done, bool has_others) {
    set *made = is_done ? set_made(Py_TYPE(self), self->of) : NULL;
    if (!made) {
        runs_free(from);
        return NULL;
    }
    if (!runs_end(from, made)) {
        Py_DECREF(made);
        return NULL;
    }
    return Py_BuildValue("(NN)", made, PyBool_FromLong(has_others));
}

PyObject *set_filled(PyObject *self, PyObject *arguments) {
    set *it = (set *)self;
    PyObject *items, *item;
    int is_adding, are_values;
    bool has_others = false, is_done = true;
    if (!PyArg_ParseTuple(arguments, "Opp", &items, &is_adding, &are_values)) {
        return NULL;
    }
    PyObject *walk = PyObject_GetIter(items);
    runs waiting = {.calls = it->of->calls};
    for (size_t at = 1; walk && is_done && (item = PyIter_Next(walk)); at++) {
        is_done = add_item(it, item, is_adding, are_values, &waiting, &has_others);
        is_done = is_done && (at % 65536 || PyErr_CheckSignals() == 0);
        Py_DECREF(item);
    }
    Py_XDECREF(walk);
    return filled(it, &waiting, is_done && !PyErr_Occurred(), has_others);
}

/* ---- Arrays of numbers. */

typedef struct numbers {
    const char *data;
    Py_ssize_t number;
    int size;
    int is_signed;
} numbers;

/* Reads what is the same for each call on an array: bytes, the size of a number, and whether it may be below 0. */
static bool is_array(set *self, PyObject *data, numbers *of) {
    bool is_right = !self->of->kind && PyBytes_Check(data) && (of->size == 1 || of->size == 2 || of->size == 4 || of->size == 8);
    if (!is_right || PyBytes_Size(data) % of->size) {
        PyErr_SetString(PyExc_TypeError, "an array of numbers is bytes, and its set has ints");
        return false;
    }
    of->data = PyBytes_AsString(data);
    of->number = PyBytes_Size(data) / of->size;
    return true;
}

/* Finds the rank of a number of an array. */
static fit rank_at(const element *of, const numbers *from, Py_ssize_t at, wide *rank, int64_t *number) {
    uint64_t read = 0;
    memcpy(&read, from->data + at * from->size, (size_t)from->size);
    int unused = 64 - 8 * from->size;
    bool is_negative = from->is_signed && read << unused >> 63;
    read = is_negative ? (uint64_t)((int64_t)(read << unused) >> unused) : read;
    *number = (int64_t)read;
    return rank_of_number(of, is_negative, read, rank);
}

/* Raises OverflowError for a number of an array. */
static void refuse_number(set *self, bool is_signed, int64_t number) {
    PyObject *value = is_signed ? PyLong_FromLongLong(number) : PyLong_FromUnsignedLongLong((uint64_t)number);
    if (value) {
        refuse(self->of, value, false);
        Py_DECREF(value);
    }
}

/* Adds the values from one number of an array to another. Returns false if an exception is set. */
static bool add_numbers(set *self, const numbers *from, Py_ssize_t first, Py_ssize_t last, bool is_adding, runs *to,
                        bool *has_others) {
    span run;
    int64_t ends[2];
    fit fits[] = {rank_at(self->of, from, first, &run.first, &ends[0]), rank_at(self->of, from, last, &run.last, &ends[1])};
    bool is_empty = from->is_signed ? ends[1] < ends[0] : (uint64_t)ends[1] < (uint64_t)ends[0];
    if (is_empty) {
        return true;
    }
    if (fits[0] != FITS || fits[1] != FITS) {
        *has_others = true;
        if (is_adding) {
            refuse_number(self, from->is_signed, ends[fits[0] == FITS]);
            return false;
        }
        if (fits[0] == ABOVE || fits[1] == BELOW) {
            return true;
        }
        run.first = fits[0] == FITS ? run.first : 0;
        run.last = fits[1] == FITS ? run.last : self->of->top;
    }
    return runs_add(to, run);
}

PyObject *set_filled_by(PyObject *self, PyObject *arguments) {
    set *it = (set *)self;
    PyObject *data;
    numbers from;
    int are_ends, is_adding;
    bool has_others = false, is_done = true;
    if (!PyArg_ParseTuple(arguments, "Oippp", &data, &from.size, &from.is_signed, &are_ends, &is_adding)
        || !is_array(it, data, &from)) {
        return NULL;
    }
    runs waiting = {.calls = it->of->calls};
    int step = are_ends ? 2 : 1;
    for (Py_ssize_t at = 0; is_done && at + step <= from.number; at += step) {
        is_done = add_numbers(it, &from, at, at + step - 1, is_adding, &waiting, &has_others);
    }
    return filled(it, &waiting, is_done, has_others);
}

PyObject *set_has_numbers(PyObject *self, PyObject *arguments) {
    set *it = (set *)self;
    PyObject *data;
    numbers from;
    if (!PyArg_ParseTuple(arguments, "Oip", &data, &from.size, &from.is_signed) || !is_array(it, data, &from)) {
        return NULL;
    }
    PyObject *made = PyBytes_FromStringAndSize(NULL, from.number);
    char *out = made ? PyBytes_AsString(made) : NULL;
    for (Py_ssize_t at = 0; made && at < from.number; at++) {
        wide rank;
        int64_t number;
        out[at] = rank_at(it->of, &from, at, &rank, &number) == FITS && it->of->calls->contains(&it->handle, rank);
    }
    return made;
}

/* Writes the lowest bytes of a number, and returns where the next one goes. */
static char *written(char *to, wide number, int size) {
    memcpy(to, &number, (size_t)size);
    return to + size;
}

/* Returns an object for a number of numbers of a size, or NULL. */
static PyObject *room_for(count number, int size) {
    if (number.is_all || number.number > (wide)PY_SSIZE_T_MAX / (wide)size) {
        return PyErr_NoMemory();
    }
    return PyBytes_FromStringAndSize(NULL, (Py_ssize_t)number.number * size);
}

PyObject *set_ends_bytes(PyObject *self, PyObject *Py_UNUSED(nothing)) {
    set *it = (set *)self;
    int size = it->of->calls->bits / 8;
    PyObject *made = room_for((count){it->of->calls->run_count(&it->handle), false}, 2 * size);
    char *out = made ? PyBytes_AsString(made) : NULL;
    wide least = it->of->least, from = 0;
    span block[BLOCK];
    size_t stored = made ? BLOCK : 0;
    while (stored == BLOCK) {
        stored = read_runs(it, from, block);
        for (size_t at = 0; at < stored; at++) {
            out = written(written(out, block[at].first + least, size), block[at].last + least, size);
        }
        from = stored ? block[stored - 1].last + 1 : 0;
        stored = stored && block[stored - 1].last == it->of->top ? 0 : stored;
    }
    return made;
}

PyObject *set_values_bytes(PyObject *self, PyObject *Py_UNUSED(nothing)) {
    set *it = (set *)self;
    int size = it->of->calls->bits / 8;
    PyObject *made = room_for(it->of->calls->len(&it->handle), size);
    char *out = made ? PyBytes_AsString(made) : NULL;
    span run;
    bool has_more = made && it->of->calls->next_run(&it->handle, 0, &run);
    while (has_more) {
        for (wide value = run.first + it->of->least; value != run.last + it->of->least + 1; value++) {
            out = written(out, value, size);
        }
        has_more = it->of->calls->run_after(&it->handle, run.last, &run);
    }
    return made;
}
