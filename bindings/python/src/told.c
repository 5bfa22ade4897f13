/* What the library takes and tells, between Python and C. */
#include "told.h"

#include <string.h>

/* The classes, two functions that make exceptions, and the members of enumerations by number, each a tuple. */
static struct {
    PyObject *reply, *fact, *check, *bad, *kinds, *ends, *refusals, *fact_kinds, *events, *closes, *fails;
} names;
static PyObject *tuple_new;

int take_names(PyObject *given) {
    PyObject *const *const tuple = &names.kinds;
    if (!PyArg_ParseTuple(given, "OOOOOOOOOOO", &names.reply, &names.fact, &names.check, &names.bad, &names.kinds, &names.ends, &names.refusals, &names.fact_kinds,
                          &names.events, &names.closes, &names.fails))
        return 0;
    for (size_t i = 0; i < 7; i++)
        if (!PyTuple_Check(tuple[i])) return PyErr_SetString(PyExc_TypeError, "the members of an enumeration are a tuple"), 0;
    for (Py_ssize_t i = 0; i < PyTuple_Size(given); i++) Py_INCREF(PyTuple_GetItem(given, i));
    tuple_new = PyObject_GetAttrString((PyObject *)&PyTuple_Type, "__new__");
    return tuple_new != NULL;
}

static int no_number(PyObject *value, int bits) {
    PyErr_Clear();
    PyErr_Format(PyExc_OverflowError, "%S is no number of %d bits", value, bits);
    return 0;
}

/* A number of so many bits, of an int or of what Python can use as an index. */
static int whole(PyObject *value, int bits, uint64_t *to) {
    PyObject *index = PyNumber_Index(value);
    if (!index) return 0;
    *to = PyLong_AsUnsignedLongLong(index);
    Py_DECREF(index);
    if (*to == UINT64_MAX && PyErr_Occurred()) return PyErr_ExceptionMatches(PyExc_OverflowError) ? no_number(value, bits) : 0;
    return bits == 64 || *to >> bits == 0 ? 1 : no_number(value, bits);
}

int wide(PyObject *value, void *to) {
    return whole(value, 64, to);
}

int narrow(PyObject *value, void *to) {
    uint64_t number = 0;
    if (!whole(value, 32, &number)) return 0;
    *(uint32_t *)to = (uint32_t)number;
    return 1;
}

int text(PyObject *value, void *to) {
    struct text *it = to;
    char *at = NULL;
    Py_ssize_t len = 0;
    if (!value) { /* a later argument was none */
        Py_CLEAR(it->held);
        return 1;
    }
    if (PyUnicode_Check(value)) {
        it->held = PyUnicode_AsUTF8String(value);
        if (!it->held) return 0;
    } else {
        Py_INCREF(value);
        it->held = value;
    }
    if (PyBytes_AsStringAndSize(it->held, &at, &len) < 0) {
        Py_CLEAR(it->held);
        return 0;
    }
    it->at = (const uint8_t *)at;
    it->len = (size_t)len;
    return Py_CLEANUP_SUPPORTED;
}

PyObject *raised(mdb_status status, PyObject *what) {
    PyObject *none = PyObject_CallFunction(names.check, "IO", (unsigned)status, what);
    Py_XDECREF(none);
    if (none) PyErr_SetString(PyExc_SystemError, "a status that is no error");
    return NULL;
}

PyObject *raised_by(mdb_status status, const char *name) {
    PyObject *what = PyUnicode_FromString(name);
    if (what) raised(status, what);
    Py_XDECREF(what);
    return NULL;
}

PyObject *bad_document(const mdb_document_fault *bad) {
    PyObject *error = PyObject_CallFunction(names.bad, "IKs", (unsigned)bad->kind, (unsigned long long)bad->place, bad->field);
    if (error) PyErr_SetObject((PyObject *)Py_TYPE(error), error);
    Py_XDECREF(error);
    return NULL;
}

/* The member of this number, or the number where it has none. */
static PyObject *member(PyObject *of, uint32_t number) {
    if (!of || (Py_ssize_t)number >= PyTuple_Size(of)) return PyLong_FromUnsignedLong(number);
    PyObject *it = PyTuple_GetItem(of, (Py_ssize_t)number);
    Py_XINCREF(it);
    return it;
}

/* A named tuple of these fields, which are taken over; NULL where one of them is. */
static PyObject *made(PyObject *class, PyObject *const *fields, Py_ssize_t count) {
    PyObject *tuple = PyTuple_New(count), *it = NULL;
    int whole_one = tuple != NULL;
    for (Py_ssize_t i = 0; i < count; i++) {
        whole_one &= fields[i] != NULL;
        if (tuple)
            PyTuple_SetItem(tuple, i, fields[i]);
        else
            Py_XDECREF(fields[i]);
    }
    if (whole_one) it = PyObject_CallFunctionObjArgs(tuple_new, class, tuple, NULL);
    Py_XDECREF(tuple);
    return it;
}

static PyObject *service_of(const mdb_fact *fact) {
    static const char digits[] = "0123456789abcdef";
    char hex[24];
    if (!fact->has_service) return Py_INCREF(Py_None), Py_None;
    for (size_t i = 0; i < 12; i++) {
        hex[2 * i] = digits[fact->service[i] >> 4];
        hex[2 * i + 1] = digits[fact->service[i] & 15];
    }
    return PyUnicode_FromStringAndSize(hex, 24);
}

/* The reasons that `why` of such a fact is one of, or NULL. */
static PyObject *reasons_of(const mdb_fact *fact) {
    if (fact->kind == MDB_FACT_ENDED) return names.ends;
    if (fact->event == MDB_CONNECTION_CLOSED) return names.closes;
    return fact->event == MDB_CHECKOUT_FAILED ? names.fails : NULL;
}

static PyObject *fact_from(const mdb_fact *fact) {
    PyObject *fields[] = {
        member(names.fact_kinds, fact->kind), member(names.events, fact->event), PyLong_FromUnsignedLong(fact->pool), PyLong_FromUnsignedLong(fact->id),
        PyLong_FromUnsignedLong(fact->party), member(reasons_of(fact), fact->why), PyLong_FromUnsignedLongLong(fact->number), service_of(fact),
        PyBool_FromLong(fact->has_pool != 0),
    };
    return made(names.fact, fields, sizeof fields / sizeof *fields);
}

static PyObject *facts_from(const mdb_fact *facts, size_t count) {
    PyObject *tuple = PyTuple_New((Py_ssize_t)count);
    for (size_t i = 0; tuple && i < count; i++) {
        PyObject *fact = fact_from(facts + i);
        if (fact)
            PyTuple_SetItem(tuple, (Py_ssize_t)i, fact);
        else
            Py_CLEAR(tuple);
    }
    return tuple;
}

PyObject *told_facts(const mdb_told *told) {
    return facts_from(told->facts, (size_t)told->count);
}

PyObject *all_facts(void *slot, facts_of call) {
    mdb_fact few[MDB_TOLD_FACTS], *many = NULL;
    size_t room = MDB_TOLD_FACTS, count = 0;
    mdb_status status = call(slot, few, room, &count);
    while (status == MDB_NO_ROOM) {
        room = count;
        PyMem_Free(many);
        many = PyMem_Malloc(room * sizeof *many);
        if (!many) return PyErr_NoMemory();
        status = call(slot, many, room, &count);
    }
    PyObject *facts = status == MDB_OK ? facts_from(many ? many : few, count) : raised_by(status, "facts");
    PyMem_Free(many);
    return facts;
}

PyObject *reply_with(const mdb_reply *reply, PyObject *facts) {
    PyObject *reasons = reply->kind == MDB_ENDED ? names.ends : reply->kind == MDB_REFUSED ? names.refusals : NULL;
    PyObject *fields[] = {
        member(names.kinds, reply->kind), PyLong_FromUnsignedLong(reply->pool), PyLong_FromUnsignedLong(reply->id), member(reasons, reply->why),
        PyLong_FromUnsignedLongLong(reply->number), facts,
    };
    return made(names.reply, fields, sizeof fields / sizeof *fields);
}
