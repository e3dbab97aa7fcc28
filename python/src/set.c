/* The type of sets: how they begin and end, their look-ups, and their walks. */
#include "core.h"
#include "methods.h"

PyTypeObject *set_type;

/* The element of a set that Python makes without one: ints of 64 bits with a sign. */
static element *usual;

bool succeeded(uint32_t status) {
    if (status == RSB_NO_MEMORY) {
        PyErr_SetString(PyExc_MemoryError, "the C library could not allocate memory for a range set");
    }
    return status != RSB_NO_MEMORY;
}

int changed(set *self, uint32_t status) {
    self->changes += status == RSB_CHANGED;
    return succeeded(status) ? status == RSB_CHANGED : -1;
}

set *set_made(PyTypeObject *type, element *of) {
    set *made = (set *)((allocfunc)PyType_GetSlot(type, Py_tp_alloc))(type, 0);
    if (made) {
        Py_INCREF(of);
        made->of = of;
        made->hash = -1;
    }
    return made;
}

bool run_or_gap(const set *self, wide value, span *block) {
    bool is_run = self->of->calls->run_or_gap(&self->handle, value, block);
    if (block->last > self->of->top) {
        block->last = self->of->top;
    }
    return is_run;
}

size_t read_runs(const set *self, wide first, span runs[BLOCK]) {
    return self->of->calls->runs_in(&self->handle, first, self->of->top, runs);
}

static PyObject *set_new(PyTypeObject *type, PyObject *Py_UNUSED(arguments), PyObject *Py_UNUSED(names)) {
    return (PyObject *)set_made(type, usual);
}

static void set_dealloc(PyObject *self) {
    set *it = (set *)self;
    PyTypeObject *type = Py_TYPE(self);
    if (it->of) {
        it->of->calls->free(&it->handle);
        Py_DECREF(it->of);
    }
    ((freefunc)PyType_GetSlot(type, Py_tp_free))(self);
    Py_DECREF(type);
}

static PyObject *set_begin(PyObject *self, PyObject *of) {
    set *it = (set *)self;
    if (!PyObject_TypeCheck(of, element_type)) {
        PyErr_SetString(PyExc_TypeError, "the element of a set is an Element");
        return NULL;
    }
    /* A user's function may run in a call on the set, which still uses its element. Only the usual one is never freed. */
    if (it->of != (element *)of && (it->of != usual || it->changes)) {
        PyErr_SetString(PyExc_TypeError, "a set keeps the type of its values: make another one");
        return NULL;
    }
    element *before = it->of;
    before->calls->free(&it->handle);
    Py_INCREF(of);
    it->of = (element *)of;
    it->changes++;
    Py_DECREF(before);
    Py_RETURN_NONE;
}

static PyObject *set_empty(PyObject *self, PyObject *Py_UNUSED(nothing)) {
    return (PyObject *)set_made(Py_TYPE(self), ((set *)self)->of);
}

static PyObject *set_copy(PyObject *self, PyObject *Py_UNUSED(nothing)) {
    set *it = (set *)self, *made = set_made(Py_TYPE(self), it->of);
    if (made && !succeeded(it->of->calls->clone(&made->handle, &it->handle))) {
        Py_CLEAR(made);
    }
    return (PyObject *)made;
}

static PyObject *set_element(PyObject *self, void *Py_UNUSED(nothing)) {
    PyObject *of = (PyObject *)((set *)self)->of;
    Py_INCREF(of);
    return of;
}

/* ---- Members. */

static int set_contains(PyObject *self, PyObject *object) {
    set *it = (set *)self;
    span run;
    switch (ends_of(it->of, object, ASK, false, &run)) {
    case NO_ENDS:
        return -1;
    case NONE:
        return 1;
    case SOME:
        return run.first == run.last ? it->of->calls->contains(&it->handle, run.first)
                                     : it->of->calls->contains_range(&it->handle, run.first, run.last);
    default:
        return 0;
    }
}

static Py_ssize_t set_len(PyObject *self) {
    set *it = (set *)self;
    count number = it->of->calls->len(&it->handle);
    if (number.is_all || number.number > PY_SSIZE_T_MAX) {
        PyErr_SetString(PyExc_OverflowError, "the set has more members than len() can return: use count()");
        return -1;
    }
    return (Py_ssize_t)number.number;
}

static int set_bool(PyObject *self) {
    return ((set *)self)->of->calls->run_count(&((set *)self)->handle) > 0;
}

static PyObject *set_count(PyObject *self, PyObject *arguments) {
    set *it = (set *)self;
    PyObject *values = NULL, *last = NULL;
    span run;
    if (!PyArg_ParseTuple(arguments, "|OO:count", &values, &last)) {
        return NULL;
    }
    if (!values) {
        return int_of_count(it->of->calls->len(&it->handle));
    }
    ends found = last ? ends_of_two(it->of, values, last, HELD, &run) : ends_of(it->of, values, HELD, false, &run);
    if (found == NO_ENDS) {
        return NULL;
    }
    if (found == NONE || found == OUTSIDE) {
        return PyLong_FromLong(0);
    }
    return int_of_count(it->of->calls->len_in(&it->handle, run.first, run.last));
}

static PyObject *set_rank(PyObject *self, PyObject *value) {
    set *it = (set *)self;
    wide rank;
    return rank_in(it->of, value, &rank) ? int_of_count(it->of->calls->rank(&it->handle, rank)) : NULL;
}

static PyObject *set_nth(PyObject *self, PyObject *place) {
    set *it = (set *)self;
    wide n, value;
    bool is_beyond;
    if (!wide_of(place, &n, &is_beyond)) {
        return NULL;
    }
    if (is_beyond || !it->of->calls->nth(&it->handle, n, &value)) {
        PyErr_SetString(PyExc_IndexError, "the set has no member at this place");
        return NULL;
    }
    return value_of(it->of, value);
}

static PyObject *none_or_value(set *it, bool found, wide value) {
    if (!found) {
        Py_RETURN_NONE;
    }
    return value_of(it->of, value);
}

static PyObject *set_first(PyObject *self, PyObject *Py_UNUSED(nothing)) {
    set *it = (set *)self;
    span run;
    bool found = it->of->calls->next_run(&it->handle, 0, &run);
    return none_or_value(it, found, run.first);
}

static PyObject *set_last(PyObject *self, PyObject *Py_UNUSED(nothing)) {
    set *it = (set *)self;
    span run;
    bool found = it->of->calls->prev_run(&it->handle, it->of->top, &run);
    return none_or_value(it, found, run.last);
}

/* ---- Runs and gaps beside a value. */

static PyObject *none_or_run(set *it, bool found, span run) {
    if (!found) {
        Py_RETURN_NONE;
    }
    return run_made(it->of, run);
}

/* Reads the one argument of a call, or takes a rank if there is none. */
static bool read_rank(set *it, PyObject *arguments, wide otherwise, wide *rank) {
    PyObject *value = NULL;
    *rank = otherwise;
    return PyArg_UnpackTuple(arguments, "a look-up", 0, 1, &value) && (!value || rank_in(it->of, value, rank));
}

static bool next_gap(const set *it, wide value, span *out) {
    if (!run_or_gap(it, value, out)) {
        return true;
    }
    return out->last < it->of->top && !run_or_gap(it, out->last + 1, out);
}

static bool prev_gap(const set *it, wide value, span *out) {
    if (!run_or_gap(it, value, out)) {
        return true;
    }
    return out->first > 0 && !run_or_gap(it, out->first - 1, out);
}

static bool gap_after(const set *it, wide value, span *out) {
    bool has_run = it->of->calls->next_run(&it->handle, value, out);
    return has_run && out->last < it->of->top && !run_or_gap(it, out->last + 1, out);
}

static bool gap_before(const set *it, wide value, span *out) {
    bool has_run = it->of->calls->prev_run(&it->handle, value, out);
    return has_run && out->first > 0 && !run_or_gap(it, out->first - 1, out);
}

static bool gap_of(const set *it, wide value, span *out) {
    return !run_or_gap(it, value, out);
}

static bool next_run(const set *it, wide value, span *out) {
    return it->of->calls->next_run(&it->handle, value, out);
}

static bool prev_run(const set *it, wide value, span *out) {
    return it->of->calls->prev_run(&it->handle, value, out);
}

static bool run_after(const set *it, wide value, span *out) {
    return it->of->calls->run_after(&it->handle, value, out);
}

static bool run_before(const set *it, wide value, span *out) {
    return it->of->calls->run_before(&it->handle, value, out);
}

/* A look-up at a value. */
#define AT(name, call)                                                                                                         \
    static PyObject *name(PyObject *self, PyObject *value) {                                                                   \
        set *it = (set *)self;                                                                                                 \
        wide rank;                                                                                                             \
        span run;                                                                                                              \
        if (!rank_in(it->of, value, &rank)) {                                                                                  \
            return NULL;                                                                                                       \
        }                                                                                                                      \
        bool found = call(it, rank, &run);                                                                                     \
        return none_or_run(it, found, run);                                                                                    \
    }
AT(set_run_of, run_or_gap)
AT(set_gap_of, gap_of)
AT(set_run_after, run_after)
AT(set_run_before, run_before)
AT(set_gap_after, gap_after)
AT(set_gap_before, gap_before)

/* A look-up that begins at a value, or at an end of the type. */
#define FROM(name, call, otherwise)                                                                                            \
    static PyObject *name(PyObject *self, PyObject *arguments) {                                                               \
        set *it = (set *)self;                                                                                                 \
        wide rank;                                                                                                             \
        span run;                                                                                                              \
        if (!read_rank(it, arguments, otherwise, &rank)) {                                                                     \
            return NULL;                                                                                                       \
        }                                                                                                                      \
        bool found = call(it, rank, &run);                                                                                     \
        return none_or_run(it, found, run);                                                                                    \
    }
FROM(set_next_run, next_run, 0)
FROM(set_prev_run, prev_run, it->of->top)
FROM(set_next_gap, next_gap, 0)
FROM(set_prev_gap, prev_gap, it->of->top)

/* Reads a length less one. */
static bool read_length(PyObject *length, wide *most, bool *is_beyond) {
    PyObject *one = PyLong_FromLong(1), *less = one ? PyNumber_Subtract(length, one) : NULL;
    bool is_done = less && wide_of(less, most, is_beyond);
    Py_XDECREF(one);
    Py_XDECREF(less);
    if (!is_done && PyErr_ExceptionMatches(PyExc_ValueError)) {
        PyErr_SetString(PyExc_ValueError, "the length of a run or a gap is at least 1");
    }
    return is_done;
}

/* Finds the first run or gap of at least a length. The library's last gap may go on beyond the greatest rank of the element, but
   no other comes after it. */
static PyObject *first_of_length(PyObject *self, PyObject *arguments, PyObject *names, bool is_gap) {
    static char *parameters[] = {"length", "start", NULL};
    set *it = (set *)self;
    const calls *by = it->of->calls;
    PyObject *length = NULL, *start = NULL;
    wide most = 0, from = 0;
    span run = {0, 0};
    bool is_beyond = false;
    if (!PyArg_ParseTupleAndKeywords(arguments, names, "|OO", parameters, &length, &start)
        || (length && !read_length(length, &most, &is_beyond)) || (start && !rank_in(it->of, start, &from))) {
        return NULL;
    }
    /* The library's lengths have at most 64 bits, or 128. The longest run has one value more. */
    wide longest = by->bits == 128 ? ~(wide)0 : UINT64_MAX;
    bool found = !is_beyond
                 && (is_gap ? by->first_gap : by->first_run_of)(&it->handle, from, most < longest ? most + 1 : longest, &run);
    run.last = run.last < it->of->top ? run.last : it->of->top;
    found = found && run.first <= run.last && run.last - run.first >= most;
    return none_or_run(it, found, run);
}

static PyObject *set_first_gap(PyObject *self, PyObject *arguments, PyObject *names) {
    return first_of_length(self, arguments, names, true);
}

static PyObject *set_first_run_of(PyObject *self, PyObject *arguments, PyObject *names) {
    return first_of_length(self, arguments, names, false);
}

/* ---- Walks. */

static PyObject *set_iter(PyObject *self) {
    return walk_made((set *)self, VALUES, false);
}

static PyObject *set_walk(PyObject *self, PyObject *arguments) {
    int what, is_reversed;
    return PyArg_ParseTuple(arguments, "ip", &what, &is_reversed) ? walk_made((set *)self, what, is_reversed) : NULL;
}

static PyObject *set_run_count(PyObject *self, PyObject *Py_UNUSED(nothing)) {
    return PyLong_FromSize_t(((set *)self)->of->calls->run_count(&((set *)self)->handle));
}

/* The ranks of the next run at or after a rank, as a pair of ints. */
static PyObject *set_next_ranks(PyObject *self, PyObject *from) {
    set *it = (set *)self;
    wide rank;
    span run;
    bool is_beyond;
    if (!wide_of(from, &rank, &is_beyond)) {
        return NULL;
    }
    if (is_beyond || rank > it->of->top || !it->of->calls->next_run(&it->handle, rank, &run)) {
        Py_RETURN_NONE;
    }
    return Py_BuildValue("(NN)", int_of(run.first), int_of(run.last));
}

/* The hash that a frozenset of the members has. */
static PyObject *set_hash(PyObject *self, PyObject *Py_UNUSED(nothing)) {
    set *it = (set *)self;
    count number = it->of->calls->len(&it->handle);
    size_t mixed = ((size_t)number.number + 1) * 1927868237u;
    PyObject *walk = it->hash == -1 ? walk_made(it, VALUES, false) : NULL, *value;
    while (walk && (value = PyIter_Next(walk))) {
        size_t hash = (size_t)PyObject_Hash(value);
        mixed ^= ((hash ^ 89869747u) ^ (hash << 16)) * 3644798167u;
        Py_DECREF(value);
        if (hash == (size_t)-1) {
            break; /* the value is not hashable */
        }
    }
    if (PyErr_Occurred()) {
        Py_XDECREF(walk);
        return NULL;
    }
    if (walk) {
        mixed ^= (mixed >> 11) ^ (mixed >> 25);
        mixed = mixed * 69069u + 907133923u;
        it->hash = mixed == (size_t)-1 ? 590923713 : (Py_hash_t)mixed;
        Py_DECREF(walk);
    }
    return PyLong_FromSsize_t(it->hash);
}

static PyMethodDef methods[] = {
    {"_begin", set_begin, METH_O, "_begin($self, element, /)\n--\n\nEmpties the set, which now has values of an element."},
    {"_empty", set_empty, METH_NOARGS, "_empty($self, /)\n--\n\nReturns an empty set of this type."},
    {"_copy", set_copy, METH_NOARGS, "_copy($self, /)\n--\n\nReturns a copy of this type."},
    {"_nth", set_nth, METH_O, "_nth($self, place, /)\n--\n\nReturns the member with this many below it, or raises IndexError."},
    {"_walk", set_walk, METH_VARARGS, "_walk($self, what, is_reversed, /)\n--\n\nReturns a walk over values, runs or gaps."},
    {"_run_count", set_run_count, METH_NOARGS, "_run_count($self, /)\n--\n\nReturns the number of runs."},
    {"_next_ranks", set_next_ranks, METH_O, "_next_ranks($self, rank, /)\n--\n\nReturns the ranks of the next run, or None."},
    {"_hash_of_members", set_hash, METH_NOARGS, "_hash_of_members($self, /)\n--\n\nReturns the hash of a frozenset."},
    {"count", set_count, METH_VARARGS, COUNT_DOC},
    {"rank", set_rank, METH_O, RANK_DOC},
    {"first", set_first, METH_NOARGS, FIRST_DOC},
    {"last", set_last, METH_NOARGS, LAST_DOC},
    {"run_of", set_run_of, METH_O, RUN_OF_DOC},
    {"gap_of", set_gap_of, METH_O, GAP_OF_DOC},
    {"next_run", set_next_run, METH_VARARGS, NEXT_RUN_DOC},
    {"prev_run", set_prev_run, METH_VARARGS, PREV_RUN_DOC},
    {"run_after", set_run_after, METH_O, RUN_AFTER_DOC},
    {"run_before", set_run_before, METH_O, RUN_BEFORE_DOC},
    {"next_gap", set_next_gap, METH_VARARGS, NEXT_GAP_DOC},
    {"prev_gap", set_prev_gap, METH_VARARGS, PREV_GAP_DOC},
    {"gap_after", set_gap_after, METH_O, GAP_AFTER_DOC},
    {"gap_before", set_gap_before, METH_O, GAP_BEFORE_DOC},
    {"first_gap", (PyCFunction)(void (*)(void))set_first_gap, METH_VARARGS | METH_KEYWORDS, FIRST_GAP_DOC},
    {"first_run_of", (PyCFunction)(void (*)(void))set_first_run_of, METH_VARARGS | METH_KEYWORDS, FIRST_RUN_OF_DOC},
    ALGEBRA_METHODS,
    ARRAY_METHODS,
    BYTES_METHODS,
    SUBSCRIPT,
    {NULL, NULL, 0, NULL},
};

static PyGetSetDef members[] = {
    {"element", set_element, NULL, "The type of the values: an `Element`.", NULL},
    {NULL, NULL, NULL, NULL, NULL},
};

static PyType_Slot slots[] = {
    {Py_tp_doc, "A set that owns its memory, and the calls that read it."},
    {Py_tp_new, set_new},
    {Py_tp_dealloc, set_dealloc},
    {Py_tp_iter, set_iter},
    {Py_tp_methods, methods},
    {Py_tp_getset, members},
    {Py_sq_contains, set_contains},
    {Py_sq_length, set_len},
    {Py_nb_bool, set_bool},
    {0, NULL},
};

static PyType_Spec spec = {"range_set._core.Set", sizeof(set), 0, Py_TPFLAGS_DEFAULT | Py_TPFLAGS_BASETYPE, slots};

/* Makes the element of sets that Python makes without one. */
static element *usual_made(void) {
    PyObject *bits = PyLong_FromLong(64), *least = PyLong_FromLongLong(INT64_MIN), *greatest = PyLong_FromLongLong(INT64_MAX);
    PyObject *made = bits && least && greatest
                         ? PyObject_CallFunctionObjArgs((PyObject *)element_type, bits, least, greatest, NULL)
                         : NULL;
    Py_XDECREF(bits);
    Py_XDECREF(least);
    Py_XDECREF(greatest);
    return (element *)made;
}

bool add_sets(PyObject *module) {
    usual = usual_made();
    return usual && add_type(module, "Set", &spec, NULL, &set_type) && add_changing(module);
}
