/* Walks over the values, the runs or the gaps of a set, in both directions. */
#include "core.h"

PyTypeObject *walk_type;

typedef struct walk {
    PyObject_HEAD
    set *of; /* NULL at the end */
    size_t changes;
    int what;
    bool is_reversed;
    bool has_more;  /* whether there may be runs that are not in `block` */
    bool has_gap;   /* whether there may be a gap beyond `edge` */
    wide edge;      /* where the next run to read, or the next gap, begins; for a reversed walk, where it ends */
    span values;    /* the rest of the run whose values the walk yields */
    bool has_values;
    size_t at, stored;
    span block[BLOCK];
} walk;

PyObject *walk_made(set *of, int what, bool is_reversed) {
    walk *made = PyObject_New(walk, walk_type);
    if (!made) {
        return NULL;
    }
    Py_INCREF(of);
    made->of = of;
    made->changes = of->changes;
    made->what = what;
    made->is_reversed = is_reversed;
    made->has_more = made->has_gap = true;
    made->edge = is_reversed ? of->of->top : 0;
    made->has_values = false;
    made->at = made->stored = 0;
    return (PyObject *)made;
}

static void walk_dealloc(PyObject *self) {
    PyTypeObject *type = Py_TYPE(self);
    Py_XDECREF(((walk *)self)->of);
    PyObject_Free(self);
    Py_DECREF(type);
}

/* Reads runs into the block: as many as fit, or one if the walk is reversed. `from` is where they begin or end. */
static void fill(walk *it, wide from) {
    const set *of = it->of;
    it->at = 0;
    if (it->is_reversed) {
        it->stored = of->of->calls->prev_run(&of->handle, from, it->block);
        it->has_more = it->stored && it->block[0].first > 0;
    } else {
        it->stored = read_runs(of, from, it->block);
        it->has_more = it->stored == BLOCK && it->block[BLOCK - 1].last < of->of->top;
    }
}

/* Finds the next run. */
static bool next_run(walk *it, span *out) {
    if (it->at == it->stored) {
        if (!it->has_more) {
            return false;
        }
        bool is_first = it->stored == 0;
        const span *last = it->block + (it->stored - !is_first);
        fill(it, is_first ? (it->is_reversed ? it->of->of->top : 0) : it->is_reversed ? last->first - 1 : last->last + 1);
        if (!it->stored) {
            return false;
        }
    }
    *out = it->block[it->at++];
    return true;
}

/* Finds the next gap, which lies between `edge` and the next run. */
static bool next_gap(walk *it, span *out) {
    span run;
    wide top = it->of->of->top;
    while (it->has_gap && next_run(it, &run)) {
        bool is_gap = it->is_reversed ? run.last < it->edge : it->edge < run.first;
        *out = it->is_reversed ? (span){run.last + 1, it->edge} : (span){it->edge, run.first - 1};
        it->has_gap = it->is_reversed ? run.first > 0 : run.last < top;
        it->edge = it->is_reversed ? run.first - 1 : run.last + 1;
        if (is_gap) {
            return true;
        }
    }
    *out = it->is_reversed ? (span){0, it->edge} : (span){it->edge, top};
    bool found = it->has_gap;
    it->has_gap = false;
    return found;
}

/* Finds the next value. */
static bool next_value(walk *it, wide *out) {
    if (!it->has_values && !next_run(it, &it->values)) {
        return false;
    }
    it->has_values = it->values.first < it->values.last;
    *out = it->is_reversed ? it->values.last-- : it->values.first++;
    return true;
}

static PyObject *walk_next(PyObject *self) {
    walk *it = (walk *)self;
    span run;
    wide value = 0;
    if (!it->of) {
        return NULL;
    }
    if (it->changes != it->of->changes) {
        PyErr_SetString(PyExc_RuntimeError, "the set changed during iteration");
        return NULL;
    }
    if (!(it->what == VALUES ? next_value(it, &value) : it->what == RUNS ? next_run(it, &run) : next_gap(it, &run))) {
        Py_CLEAR(it->of);
        return NULL;
    }
    element *of = it->of->of;
    Py_INCREF(of); /* the functions of the user may end this walk */
    PyObject *made = it->what == VALUES ? value_of(of, value) : run_made(of, run);
    Py_DECREF(of);
    return made;
}

static PyType_Slot slots[] = {
    {Py_tp_doc, "A walk over the values, the runs or the gaps of a set."},
    {Py_tp_dealloc, walk_dealloc},
    {Py_tp_iter, PyObject_SelfIter},
    {Py_tp_iternext, walk_next},
    {0, NULL},
};

static PyType_Spec spec = {"range_set._core.Walk", sizeof(walk), 0, Py_TPFLAGS_DEFAULT, slots};

bool add_walks(PyObject *module) {
    return add_type(module, "Walk", &spec, NULL, &walk_type);
}
