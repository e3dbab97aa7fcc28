/* Sets as bytes, in the format of docs/FORMAT.md. */
#include "core.h"
#include "methods.h"

static const char *const reasons[] = {
    [RSB_NOT_MAGIC] = "NotMagic: the bytes of a set begin otherwise",
    [RSB_OTHER_VERSION] = "OtherVersion: the version of the format is not 1",
    [RSB_OTHER_WIDTH] = "OtherWidth: the number of bits is not that of the set",
    [RSB_CUT_SHORT] = "CutShort: the bytes end before the last run does",
    [RSB_NOT_SHORTEST] = "NotShortest: the number that ends here has a shorter form",
    [RSB_TOUCHING] = "Touching: the run touches the one before",
    [RSB_PAST_GREATEST] = "PastGreatest: the number is too large",
    [RSB_TOO_LONG] = "TooLong: the last run has ended",
};

/* How many bytes the header and the count of runs have at most. */
enum { HEADER = 16 };

PyObject *set_to_bytes(PyObject *self, PyObject *Py_UNUSED(nothing)) {
    set *it = (set *)self;
    size_t per_run = 2 * ((size_t)it->of->calls->bits / 7 + 1), runs = it->of->calls->run_count(&it->handle), length = 0;
    size_t room = runs < (PY_SSIZE_T_MAX - HEADER) / per_run ? runs * per_run + HEADER : PY_SSIZE_T_MAX;
    unsigned char *buffer = PyMem_Malloc(room);
    PyObject *made = NULL;
    if (!buffer) {
        return PyErr_NoMemory();
    }
    if (succeeded(it->of->calls->to_bytes(&it->handle, buffer, room, &length))) {
        made = PyBytes_FromStringAndSize((char *)buffer, (Py_ssize_t)length);
    }
    PyMem_Free(buffer);
    return made;
}

/* A number that is read from the bytes at a position. */
typedef struct number {
    wide value;
    size_t end;       /* the position after it */
    bool is_too_large; /* whether it is greater than `most`, whatever follows; then `end` is that of the byte */
    bool is_cut;
} number;

static number read_number(const unsigned char *bytes, size_t at, size_t end, wide most) {
    number read = {0, at, false, false};
    for (int shift = 0; read.end < end; shift += 7) {
        unsigned char byte = bytes[read.end];
        bool has_more = byte > 127;
        read.value |= (wide)(byte & 127) << shift;
        /* If there is more, it is 1 or more. */
        if (read.value > most || (has_more && most - read.value < (wide)1 << (shift + 7))) {
            read.is_too_large = true;
            return read;
        }
        read.end++;
        if (!has_more) {
            return read;
        }
    }
    read.is_cut = true;
    return read;
}

/* Returns the position of the first byte with which a number is too large for an element with fewer ranks than its width, or
   `end`. The bytes before `end` are the first ones of a set of the width (docs/DECISIONS.md, bytes-by-storage). */
static size_t past_top(const element *of, const unsigned char *bytes, size_t end) {
    wide top = of->top, next = 0;
    number read = read_number(bytes, 6, end, top / 2 + 1);
    for (wide halves = 2 * read.value; halves && !read.is_too_large && !read.is_cut; halves--) {
        /* This run and each after it but the last takes two ranks or more. */
        read = read_number(bytes, read.end, end, top - next - 2 * ((halves - 1) / 2));
        next += read.value + (halves % 2 ? 1 : 0);
    }
    return read.is_too_large ? read.end : end;
}

PyObject *set_of_bytes(PyObject *self, PyObject *data) {
    set *it = (set *)self;
    char *start;
    Py_ssize_t length;
    if (PyBytes_AsStringAndSize(data, &start, &length) < 0) {
        return NULL;
    }
    const unsigned char *bytes = (const unsigned char *)start;
    set *made = set_made(Py_TYPE(self), it->of);
    if (!made) {
        return NULL;
    }
    size_t position = (size_t)length;
    uint32_t reason = 0, status = it->of->calls->from_bytes(&made->handle, bytes, (size_t)length, &position, &reason);
    if (!succeeded(status)) {
        Py_DECREF(made);
        return NULL;
    }
    if (it->of->top < it->of->calls->greatest) {
        size_t past = past_top(it->of, bytes, position);
        reason = past < position ? RSB_PAST_GREATEST : reason;
        position = past;
    }
    if (reason) {
        Py_DECREF(made);
        return PyErr_Format(PyExc_ValueError, "not the bytes of a set, at position %zu: %s", position, reasons[reason]);
    }
    return (PyObject *)made;
}
