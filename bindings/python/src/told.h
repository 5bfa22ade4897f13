/* What the library takes and tells, between Python and C: arguments of steps, replies, facts, and the exceptions of statuses. */
#ifndef MDB_PYTHON_TOLD_H
#define MDB_PYTHON_TOLD_H

#define PY_SSIZE_T_CLEAN
#include <Python.h>

#include "mdb.h"

/* A str as UTF-8, or bytes. Its bytes are there until it is dropped. */
struct text {
    PyObject *held;
    const uint8_t *at;
    size_t len;
};

/* Converters for PyArg_ParseTuple: to uint64_t, to uint32_t, to struct text. A number that does not fit is an OverflowError. */
int wide(PyObject *value, void *to);
int narrow(PyObject *value, void *to);
int text(PyObject *value, void *to);

/* Takes the classes and the members of enumerations that results are made of; all stay until the process ends. False with an exception. */
int take_names(PyObject *names);

/* A call that tells all facts of the last entry of a slot. */
typedef mdb_status (*facts_of)(void *slot, mdb_fact *out, size_t room, size_t *count);

/* Each answers a new object, or NULL with an exception. `what` names the call or its text, where the status is not MDB_OK. */
PyObject *raised(mdb_status status, PyObject *what);
PyObject *raised_by(mdb_status status, const char *name);
PyObject *bad_document(const mdb_document_fault *bad);
PyObject *all_facts(void *slot, facts_of call);
PyObject *reply_with(const mdb_reply *reply, PyObject *facts);
PyObject *told_facts(const mdb_told *told);

#endif
