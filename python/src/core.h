/* What the files of the extension module share: ranks, the calls of each width, and the types.
 *
 * A rank is the place of a value among all values of its type, in ascending order, beginning with 0. A set keeps ranks, in a
 * handle of the C library. An element says which values have which ranks.
 *
 * The module makes each call of the library with the interpreter's lock, so a set may be shared by threads. No Python code
 * runs between the first and the last use of what a call reads, except where a comment says so.
 *
 * The types take no part in the collection of cycles: what they hold are elements, and values that can be hashed. */
#ifndef RANGE_SET_CORE_H
#define RANGE_SET_CORE_H

#define PY_SSIZE_T_CLEAN
#include <Python.h>
#include <range_set.h>

/* A rank, or a number of members. */
__extension__ typedef unsigned __int128 wide;

/* A run or a gap, with both ends. */
typedef struct span {
    wide first;
    wide last;
} span;

/* A number of members. 2^128, which is too great for `number`, has is_all instead. */
typedef struct count {
    wide number;
    bool is_all;
} count;

typedef union handle {
    rsb_u32 u32;
    rsb_u64 u64;
    rsb_u128 u128;
} handle;

typedef union handles {
    rsb_u32_sets u32;
    rsb_u64_sets u64;
    rsb_u128_sets u128;
} handles;

/* The four operations of set algebra, as the indices of `combine`, `change` and `combine_many`. */
enum { UNION, INTERSECTION, DIFFERENCE, SYMMETRIC_DIFFERENCE };

/* How many runs a walk reads with one call. */
enum { BLOCK = 64 };

/* The calls of the library for one width. Each does what the call of the same name in range_set.h does. */
typedef struct calls {
    int bits;
    wide greatest;
    size_t run_size; /* the size of a run in an array for from_runs */
    void (*put)(void *runs, size_t at, span run);
    uint32_t (*insert_range)(handle *set, wide first, wide last);
    uint32_t (*remove_range)(handle *set, wide first, wide last);
    void (*clear)(handle *set);
    void (*free)(handle *set);
    bool (*contains)(const handle *set, wide value);
    bool (*contains_range)(const handle *set, wide first, wide last);
    count (*len)(const handle *set);
    count (*len_in)(const handle *set, wide first, wide last);
    count (*rank)(const handle *set, wide value);
    bool (*nth)(const handle *set, wide n, wide *value);
    size_t (*run_count)(const handle *set);
    bool (*run_or_gap)(const handle *set, wide value, span *block);
    bool (*next_run)(const handle *set, wide from, span *run);
    bool (*prev_run)(const handle *set, wide from, span *run);
    bool (*run_after)(const handle *set, wide value, span *run);
    bool (*run_before)(const handle *set, wide value, span *run);
    size_t (*runs_in)(const handle *set, wide first, wide last, span runs[BLOCK]);
    bool (*first_gap)(const handle *set, wide from, wide length, span *gap);
    bool (*first_run_of)(const handle *set, wide from, wide length, span *run);
    uint32_t (*combine[4])(handle *out, const handle *left, const handle *right);
    uint32_t (*change[4])(handle *set, const handle *other);
    uint32_t (*complement)(handle *out, const handle *set);
    uint32_t (*clone)(handle *out, const handle *set);
    uint32_t (*from_runs)(handle *out, const void *runs, size_t number);
    uint32_t (*to_bytes)(const handle *set, unsigned char *buffer, size_t capacity, size_t *length);
    uint32_t (*from_bytes)(handle *out, const unsigned char *bytes, size_t length, size_t *position, uint32_t *reason);
    bool (*equal)(const handle *left, const handle *right);
    bool (*is_subset)(const handle *left, const handle *right);
    bool (*is_disjoint)(const handle *left, const handle *right);
    int32_t (*order)(const handle *left, const handle *right);
    uint32_t (*sets_add)(handles *list, const handle *set);
    uint32_t (*combine_many[4])(handle *out, const handles *list); /* none for DIFFERENCE */
    uint32_t (*at_least)(handle *out, const handles *list, size_t k);
    void (*sets_free)(handles *list);
} calls;

/* Returns the calls for a width, or raises ValueError and returns NULL. */
const calls *calls_for(int bits);

/* ---- Elements: the type of the values of a set. */

typedef struct element {
    PyObject_HEAD
    const calls *calls;
    wide least;      /* the int of rank 0, modulo 2^128 */
    wide top;        /* the greatest rank */
    bool is_signed;  /* whether that int is below 0 */
    PyObject *kind;  /* the type of values that are no ints, or NULL; then the next three are NULL too */
    PyObject *rank;  /* gives the int of a value */
    PyObject *value; /* gives the value of an int */
    PyObject *ends;  /* NULL, or gives the two ends of an object that stands for a range of values, or None */
} element;

/* Where an object is beside the values of an element. */
typedef enum fit { FITS, BELOW, ABOVE, FOREIGN, FAILED } fit;

/* How much a call takes. ADD: only what the set can have; anything else raises. ASK: any hashable object, and what
   does not fit makes the result OUTSIDE. HELD: the same, and what does not fit is left out. */
typedef enum mode { ADD, ASK, HELD } mode;

/* Which values an object stands for: none, those of a span, or some that the set cannot have. With HELD, SOME_OUTSIDE
   means that the span has only a part of the values. */
typedef enum ends { NONE, SOME, SOME_OUTSIDE, OUTSIDE, NO_ENDS } ends;

/* Finds the rank of a value. Returns FAILED if an exception is set. If `is_strict`, raises TypeError for an object that is no
   value of the element, and otherwise for one that is not hashable. Runs Python code. */
fit rank_of(element *of, PyObject *value, bool is_strict, wide *rank);

/* Finds the rank of a value, or raises an exception and returns false. Runs Python code. */
bool rank_in(element *of, PyObject *value, wide *rank);

/* Returns where a number of an array is, and its rank if it fits. */
fit rank_of_number(const element *of, bool is_negative, uint64_t number, wide *rank);

/* Raises what a set says of a value that it cannot have, and returns FAILED. */
fit refuse(element *of, PyObject *value, bool is_foreign);

/* Finds the values that an object stands for: a value, a range, a Run, a tuple of two, or what the element takes. `is_item`
   says whether it is an item of an iterable, which may also be a list of two. Returns NO_ENDS if an exception is set. Runs
   Python code. */
ends ends_of(element *of, PyObject *object, mode how, bool is_item, span *out);

/* The same for a first and a last value. */
ends ends_of_two(element *of, PyObject *first, PyObject *last, mode how, span *out);

/* Returns the int that an object equals, such as 1 for 1.0, or NULL. NULL without an exception means that there is none. As for
   a Python set, the object has to be hashable. Runs Python code. */
PyObject *int_equal_to(PyObject *object);

/* Returns a number as an int. */
PyObject *int_of(wide number);
PyObject *int_of_count(count number);

/* Reads an int, and whether it is greater than 2^128 - 1. Raises ValueError for an int below 0, and returns false if an exception
   is set. */
bool wide_of(PyObject *number, wide *out, bool *is_beyond);

/* Returns the value of a rank, or NULL. Runs Python code. */
PyObject *value_of(element *of, wide rank);

/* ---- Sets. */

typedef struct set {
    PyObject_HEAD
    element *of;
    handle handle;
    size_t changes; /* how many calls have changed the set */
    Py_hash_t hash; /* -1 until it is known */
} set;

/* Returns a new empty set of a type, or NULL. */
set *set_made(PyTypeObject *type, element *of);

/* Returns whether a call of the library succeeded. Otherwise raises MemoryError. */
bool succeeded(uint32_t status);

/* Counts a change. Returns whether the set changed as an int, or -1 if the call failed. */
int changed(set *self, uint32_t status);

/* Reads the run or the gap that has a value. Gaps end at the greatest rank. */
bool run_or_gap(const set *self, wide value, span *block);

/* Reads as many runs as fit into a block, starting at a rank. Returns how many. */
size_t read_runs(const set *self, wide first, span runs[BLOCK]);

/* Returns a Run of two values, or NULL. */
PyObject *run_made(element *of, span run);

/* If an object is a Run, finds its ends, which are borrowed. */
bool run_ends(PyObject *object, PyObject **first, PyObject **last);

/* Runs that wait to become a set. */
typedef struct runs {
    const calls *calls;
    char *data;
    size_t number;
    size_t room;
    span last; /* not yet in data, if has_last */
    bool has_last;
    bool is_mixed; /* whether a run came before one with a lesser first value */
} runs;

/* Adds a run at the end, or makes the last one longer if they touch. Raises MemoryError and returns false if it fails. */
bool runs_add(runs *to, span run);

/* Makes an empty set the set of these runs, and frees them. Raises MemoryError and returns false if it fails. */
bool runs_end(runs *from, set *to);
void runs_free(runs *it);

/* What a walk yields. */
enum { VALUES, RUNS, GAPS };
PyObject *walk_made(set *of, int what, bool is_reversed);

/* ---- The methods of a set in each file, and the types. The module owns the types for ever. */


extern PyTypeObject *element_type, *set_type, *changing_type, *walk_type, *run_type;

bool add_elements(PyObject *module);
bool add_sets(PyObject *module);
bool add_runs(PyObject *module);
bool add_walks(PyObject *module);

/* Makes Run[int] the same as Run, for annotations. */
PyObject *subscripted(PyObject *type, PyObject *item);
#define SUBSCRIPT {"__class_getitem__", subscripted, METH_O | METH_CLASS, NULL}

/* Makes a type, adds it to the module under its name, and keeps it. */
bool add_type(PyObject *module, const char *name, PyType_Spec *spec, PyObject *bases, PyTypeObject **kept);

#endif
