/* The extension module range_set._core. */
#include "core.h"

bool add_type(PyObject *module, const char *name, PyType_Spec *spec, PyObject *bases, PyTypeObject **kept) {
    *kept = (PyTypeObject *)PyType_FromSpecWithBases(spec, bases);
    if (!*kept) {
        return false;
    }
    Py_INCREF(*kept);
    if (PyModule_AddObject(module, name, (PyObject *)*kept) < 0) {
        Py_DECREF(*kept);
        return false;
    }
    return true;
}

PyObject *subscripted(PyObject *type, PyObject *Py_UNUSED(item)) {
    Py_INCREF(type);
    return type;
}

static struct PyModuleDef definition = {
    PyModuleDef_HEAD_INIT,
    .m_name = "range_set._core",
    .m_doc = "The sets of the C library, for the package range_set.",
    .m_size = -1,
};

/* The only name that the module exports. */
__attribute__((visibility("default"))) PyObject *PyInit__core(void);

PyObject *PyInit__core(void) {
    PyObject *module = PyModule_Create(&definition);
    bool is_done = module && add_elements(module) && add_runs(module) && add_walks(module) && add_sets(module)
                   && PyModule_AddStringConstant(module, "version", RANGE_SET_VERSION) == 0
                   && PyModule_AddIntConstant(module, "VALUES", VALUES) == 0 && PyModule_AddIntConstant(module, "RUNS", RUNS) == 0
                   && PyModule_AddIntConstant(module, "GAPS", GAPS) == 0;
    if (!is_done) {
        Py_CLEAR(module);
    }
    return module;
}
