/* The type of the values of a set: which value has which rank. */
#include "core.h"

PyTypeObject *element_type;

/* Returns an int of 128 bits, or NULL. */
static PyObject *int_of_halves(PyObject *high, uint64_t low) {
    PyObject *bits = PyLong_FromLong(64), *low_half = PyLong_FromUnsignedLongLong(low);
    PyObject *shifted = high && bits ? PyNumber_Lshift(high, bits) : NULL;
    PyObject *made = shifted && low_half ? PyNumber_Or(shifted, low_half) : NULL;
    Py_XDECREF(high);
    Py_XDECREF(bits);
    Py_XDECREF(low_half);
    Py_XDECREF(shifted);
    return made;
}

PyObject *int_of(wide number) {
    uint64_t high = (uint64_t)(number >> 64), low = (uint64_t)number;
    return high ? int_of_halves(PyLong_FromUnsignedLongLong(high), low) : PyLong_FromUnsignedLongLong(low);
}

PyObject *int_of_count(count number) {
    return number.is_all ? int_of_halves(PyLong_FromString("18446744073709551616", NULL, 10), 0) : int_of(number.number);
}

/* Returns a number modulo 2^128 as an int, which may be below 0. */
static PyObject *int_of_number(wide number, bool is_signed) {
    uint64_t high = (uint64_t)(number >> 64), low = (uint64_t)number;
    if (!is_signed) {
        return int_of(number);
    }
    if (high == (low >> 63 ? UINT64_MAX : 0)) {
        return PyLong_FromLongLong((long long)low);
    }
    return int_of_halves(PyLong_FromLongLong((long long)high), low);
}

fit rank_of_number(const element *of, bool is_negative, uint64_t number, wide *rank) {
    wide wanted = is_negative ? (wide)number | ~(wide)0 << 64 : number;
    if (is_negative && !of->is_signed) {
        return BELOW;
    }
    *rank = wanted - of->least;
    if (*rank <= of->top) {
        return FITS;
    }
    /* From least, the numbers go up to 2^127 or 2^128, and the rest is below it. */
    wide most = (of->is_signed ? (wide)1 << 127 : 0) - of->least - 1;
    return *rank <= most ? ABOVE : BELOW;
}

/* Reads the two halves of an int that needs more than 64 bits. Returns BELOW or ABOVE if 128 bits are too few. */
static fit halves_of(PyObject *number, bool is_signed, bool is_negative, wide *out) {
    PyObject *bits = PyLong_FromLong(64);
    PyObject *shifted = bits ? PyNumber_Rshift(number, bits) : NULL;
    unsigned long long low = PyLong_AsUnsignedLongLongMask(number), high = 0;
    fit found = is_negative ? BELOW : ABOVE;
    Py_XDECREF(bits);
    if (shifted && is_signed) {
        int overflow;
        high = (unsigned long long)PyLong_AsLongLongAndOverflow(shifted, &overflow);
        found = overflow ? found : FITS;
    } else if (shifted && !is_negative) {
        high = PyLong_AsUnsignedLongLong(shifted);
        if (!PyErr_Occurred()) {
            found = FITS;
        } else if (PyErr_ExceptionMatches(PyExc_OverflowError)) {
            PyErr_Clear();
        }
    }
    Py_XDECREF(shifted);
    *out = low | (wide)high << 64;
    return PyErr_Occurred() ? FAILED : found;
}

/* Finds the rank of an int. */
static fit rank_of_int(const element *of, PyObject *number, wide *rank) {
    int overflow;
    long long small = PyLong_AsLongLongAndOverflow(number, &overflow);
    if (!overflow) {
        return small == -1 && PyErr_Occurred() ? FAILED : rank_of_number(of, small < 0, (uint64_t)small, rank);
    }
    wide great;
    fit found = halves_of(number, of->is_signed, overflow < 0, &great);
    if (found == FITS) {
        *rank = great - of->least;
        found = *rank <= of->top ? FITS : overflow < 0 ? BELOW : ABOVE;
    }
    return found;
}

bool wide_of(PyObject *number, wide *out, bool *is_beyond) {
    PyObject *whole = PyNumber_Index(number);
    int overflow;
    long long small = whole ? PyLong_AsLongLongAndOverflow(whole, &overflow) : -1;
    fit found = FITS;
    if (!whole || (small == -1 && PyErr_Occurred())) {
        Py_XDECREF(whole);
        return false;
    }
    if (overflow < 0 || (!overflow && small < 0)) {
        PyErr_SetString(PyExc_ValueError, "a number of values is at least 0");
        found = FAILED;
    } else if (!overflow) {
        *out = (wide)small;
    } else {
        found = halves_of(whole, false, false, out);
    }
    Py_DECREF(whole);
    *is_beyond = found == ABOVE;
    return found != FAILED;
}

PyObject *int_equal_to(PyObject *object) {
    PyObject *number = PyNumber_Index(object);
    if (number || !PyErr_ExceptionMatches(PyExc_TypeError)) {
        return number;
    }
    PyErr_Clear();
    if (PyObject_Hash(object) == -1) {
        return NULL;
    }
    PyObject *real = PyObject_GetAttrString(object, "real");
    number = real ? PyNumber_Long(real) : NULL;
    Py_XDECREF(real);
    if (number && PyObject_RichCompareBool(object, number, Py_EQ) == 1) {
        return number;
    }
    Py_XDECREF(number);
    if (PyErr_Occurred() && PyErr_ExceptionMatches(PyExc_Exception) && !PyErr_ExceptionMatches(PyExc_MemoryError)) {
        PyErr_Clear(); /* infinity and NaN, among others */
    }
    return NULL;
}

fit refuse(element *of, PyObject *value, bool is_foreign) {
    PyObject *nothing = PyObject_CallMethod((PyObject *)of, "_refuse", "Oi", value, (int)is_foreign);
    if (nothing) {
        Py_DECREF(nothing);
        PyErr_SetString(PyExc_OverflowError, "the set cannot have this value");
    }
    return FAILED;
}

/* Returns the int by which the element ranks a value of its kind, or NULL. Runs the user's function. */
static PyObject *number_of(element *of, PyObject *value) {
    int is_kind = PyObject_IsInstance(value, of->kind);
    PyObject *given = is_kind == 1 ? PyObject_CallFunctionObjArgs(of->rank, value, NULL) : NULL;
    PyObject *number = given ? PyNumber_Index(given) : NULL;
    Py_XDECREF(given);
    if (is_kind == 0) {
        PyErr_SetNone(PyExc_TypeError);
    }
    return number;
}

/* Finds the rank of a value that is no int. */
static fit rank_of_kind(element *of, PyObject *value, bool is_strict, wide *rank) {
    PyObject *number = number_of(of, value);
    if (!number && PyErr_ExceptionMatches(PyExc_TypeError)) {
        PyErr_Clear();
        if (is_strict) {
            return refuse(of, value, true);
        }
        return PyObject_Hash(value) == -1 ? FAILED : FOREIGN;
    }
    fit found = number ? rank_of_int(of, number, rank) : FAILED;
    Py_XDECREF(number);
    return found;
}

fit rank_of(element *of, PyObject *value, bool is_strict, wide *rank) {
    fit found;
    if (of->kind) {
        found = rank_of_kind(of, value, is_strict, rank);
    } else if (PyLong_Check(value)) {
        found = rank_of_int(of, value, rank);
    } else {
        PyObject *number = is_strict ? PyNumber_Index(value) : int_equal_to(value);
        if (number) {
            found = rank_of_int(of, number, rank);
            Py_DECREF(number);
        } else if (is_strict && PyErr_ExceptionMatches(PyExc_TypeError)) {
            PyErr_Clear();
            found = refuse(of, value, true);
        } else {
            found = PyErr_Occurred() ? FAILED : FOREIGN;
        }
    }
    return found;
}

bool rank_in(element *of, PyObject *value, wide *rank) {
    fit found = rank_of(of, value, true, rank);
    return found == FITS || (found != FAILED && refuse(of, value, false) == FITS);
}

PyObject *value_of(element *of, wide rank) {
    PyObject *number = int_of_number(rank + of->least, of->is_signed);
    if (!number || !of->kind) {
        return number;
    }
    PyObject *value = PyObject_CallFunctionObjArgs(of->value, number, NULL);
    Py_DECREF(number);
    return value;
}

/* ---- The type. */

/* Reads an int of up to 128 bits, and whether it is below 0. */
static bool read_bound(PyObject *number, bool is_signed, wide *out, bool *is_negative) {
    int overflow;
    long long small = PyLong_AsLongLongAndOverflow(number, &overflow);
    if (small == -1 && PyErr_Occurred()) {
        return false;
    }
    *is_negative = overflow ? overflow < 0 : small < 0;
    fit found = halves_of(number, is_signed, *is_negative, out);
    if (found == BELOW || found == ABOVE) {
        PyErr_SetString(PyExc_ValueError, "the ranks of an element need more than 128 bits");
    }
    return found == FITS;
}

/* Reads the ints of the least and the greatest value. */
static bool read_bounds(element *of, PyObject *least, PyObject *greatest) {
    bool is_negative;
    wide last;
    if (!read_bound(least, true, &of->least, &of->is_signed)) {
        if (!PyErr_Occurred() || !PyErr_ExceptionMatches(PyExc_ValueError)) {
            return false;
        }
        PyErr_Clear(); /* 2^127 or more */
        of->is_signed = false;
    }
    if (!of->is_signed && !read_bound(least, false, &of->least, &is_negative)) {
        return false;
    }
    if (!read_bound(greatest, of->is_signed, &last, &is_negative)) {
        return false;
    }
    of->top = last - of->least;
    if (PyObject_RichCompareBool(greatest, least, Py_LT) != 0 || of->top > of->calls->greatest) {
        PyErr_SetString(PyExc_ValueError, "the greatest value of an element is below the least one");
        return false;
    }
    return true;
}

static PyObject *element_new(PyTypeObject *type, PyObject *arguments, PyObject *Py_UNUSED(names)) {
    int bits;
    PyObject *least, *greatest, *kind = Py_None, *rank = Py_None, *value = Py_None, *given = Py_None;
    if (!PyArg_ParseTuple(arguments, "iO!O!|OOOO", &bits, &PyLong_Type, &least, &PyLong_Type, &greatest, &kind, &rank, &value,
                          &given)) {
        return NULL;
    }
    const calls *of_width = calls_for(bits);
    allocfunc allocate = (allocfunc)PyType_GetSlot(type, Py_tp_alloc);
    element *made = of_width ? (element *)allocate(type, 0) : NULL;
    if (!made) {
        return NULL;
    }
    made->calls = of_width;
    PyObject *objects[] = {kind, rank, value, given}, **places[] = {&made->kind, &made->rank, &made->value, &made->ends};
    for (int at = 0; at < 4; at++) {
        if (objects[at] != Py_None) {
            Py_INCREF(objects[at]);
            *places[at] = objects[at];
        }
    }
    if (!read_bounds(made, least, greatest)) {
        Py_DECREF(made);
        return NULL;
    }
    return (PyObject *)made;
}

static void element_dealloc(PyObject *self) {
    element *it = (element *)self;
    PyTypeObject *type = Py_TYPE(self);
    Py_CLEAR(it->kind);
    Py_CLEAR(it->rank);
    Py_CLEAR(it->value);
    Py_CLEAR(it->ends);
    ((freefunc)PyType_GetSlot(type, Py_tp_free))(self);
    Py_DECREF(type);
}

static PyMethodDef methods[] = {SUBSCRIPT, {NULL, NULL, 0, NULL}};

static PyType_Slot slots[] = {
    {Py_tp_methods, methods},
    {Py_tp_doc, "The width and the ranks of values."},
    {Py_tp_new, element_new},
    {Py_tp_dealloc, element_dealloc},
    {0, NULL},
};

static PyType_Spec spec = {"range_set._core.Element", sizeof(element), 0, Py_TPFLAGS_DEFAULT | Py_TPFLAGS_BASETYPE, slots};

bool add_elements(PyObject *module) {
    return add_type(module, "Element", &spec, NULL, &element_type);
}
