/* The module mdb._compiled: the steps of drivers and of pools that stand alone, with the facts of each. The library's functions come by their addresses from
 * the package, which loads it, so that this module is linked with nothing. A step takes the moment, the seat and then what its shape says. Python's lock is
 * held from the library's call until its result is made, and each call writes into memory of its own. */
#include "told.h"

#include <string.h>

/* What a step is given. */
struct given {
    mdb_at at;
    uint32_t number[2];
    uint64_t wide;
    struct text text[2];
    mdb_connection connection;
    mdb_established_as made;
};

#define TEXT(i) given.text[i].at, given.text[i].len

/* The steps by name, shape, and what the library's function takes behind the moment and the seat: of a driver those whose facts are told by a call more, and
 * those whose facts the same call tells; of a pool all tell them. A shape has `n` for a number of 32 bits, `w` for one of 64, `t` for a text, `c` for a
 * connection and `m` for what establishing found out. One more step is one more line here. */
#define DRIVER_STEPS(PLAIN, TOLD)                                                                                                                              \
    TOLD(request, "nt", given.number[0], TEXT(0))                                                                                                              \
    TOLD(collect, "n", given.number[0])                                                                                                                        \
    TOLD(return, "nn", given.number[0], given.number[1])                                                                                                       \
    TOLD(established, "mt", &given.made, TEXT(0))                                                                                                              \
    PLAIN(warm, "nt", given.number[0], TEXT(0))                                                                                                                \
    PLAIN(give_up, "n", given.number[0])                                                                                                                       \
    PLAIN(claim, "")                                                                                                                                           \
    PLAIN(pin, "n", given.number[0])                                                                                                                           \
    PLAIN(replicate, "c", &given.connection)                                                                                                                   \
    PLAIN(take, "nc", given.number[0], &given.connection)                                                                                                      \
    PLAIN(unpin, "c", &given.connection)                                                                                                                       \
    PLAIN(maintain, "t", TEXT(0))                                                                                                                              \
    PLAIN(expire, "t", TEXT(0))                                                                                                                                \
    PLAIN(beat, "tn", TEXT(0), given.number[0])                                                                                                                \
    PLAIN(want, "n", given.number[0])                                                                                                                          \
    PLAIN(unwant, "n", given.number[0])                                                                                                                        \
    PLAIN(error, "nt", given.number[0], TEXT(0))                                                                                                               \
    PLAIN(failed, "ct", &given.connection, TEXT(0))                                                                                                            \
    PLAIN(hello, "tt", TEXT(0), TEXT(1))                                                                                                                       \
    PLAIN(beaten, "tt", TEXT(0), TEXT(1))                                                                                                                      \
    PLAIN(rtt, "tw", TEXT(0), given.wide)                                                                                                                      \
    PLAIN(hosts, "t", TEXT(0))                                                                                                                                 \
    PLAIN(cluster_time, "w", given.wide)                                                                                                                       \
    PLAIN(stop, "")

#define POOL_STEPS(POOL)                                                                                                                                       \
    POOL(request, "n", given.number[0])                                                                                                                        \
    POOL(warm, "n", given.number[0])                                                                                                                           \
    POOL(collect, "n", given.number[0])                                                                                                                        \
    POOL(give_up, "n", given.number[0])                                                                                                                        \
    POOL(return, "nn", given.number[0], given.number[1])                                                                                                       \
    POOL(claim, "")                                                                                                                                            \
    POOL(established, "nt", given.number[0], TEXT(0))                                                                                                          \
    POOL(failed, "nt", given.number[0], TEXT(0))                                                                                                               \
    POOL(pin, "n", given.number[0])                                                                                                                            \
    POOL(replicate, "n", given.number[0])                                                                                                                      \
    POOL(take, "nn", given.number[0], given.number[1])                                                                                                         \
    POOL(unpin, "n", given.number[0])                                                                                                                          \
    POOL(ready, "")                                                                                                                                            \
    POOL(clear, "nt", given.number[0], TEXT(0))                                                                                                                \
    POOL(maintain, "")                                                                                                                                         \
    POOL(tick, "")                                                                                                                                             \
    POOL(expire, "")                                                                                                                                           \
    POOL(close, "")

/* The library's functions, each of the type that the header has for it. */
static struct {
#define PLAIN(name, ...) __typeof__(mdb_##name) *name;
#define TOLD(name, ...) __typeof__(mdb_##name##_told) *name##_told;
#define POOL(name, ...) __typeof__(mdb_pool_##name) *pool_##name;
    DRIVER_STEPS(PLAIN, TOLD)
    POOL_STEPS(POOL)
#undef PLAIN
#undef TOLD
#undef POOL
    __typeof__(mdb_line_told) *line_told;
    __typeof__(mdb_hello_bson) *hello_bson;
    __typeof__(mdb_beaten_bson) *beaten_bson;
    __typeof__(mdb_facts) *facts;
    __typeof__(mdb_pool_facts) *pool_facts;
} calls;

/* Where each is, for its address. */
static const struct {
    const char *name;
    void *at;
} places[] = {
#define PLAIN(name, ...) {"mdb_" #name, &calls.name},
#define TOLD(name, ...) {"mdb_" #name "_told", &calls.name##_told},
#define POOL(name, ...) {"mdb_pool_" #name, &calls.pool_##name},
    DRIVER_STEPS(PLAIN, TOLD)
    POOL_STEPS(POOL)
#undef PLAIN
#undef TOLD
#undef POOL
    {"mdb_line_told", &calls.line_told}, {"mdb_hello_bson", &calls.hello_bson}, {"mdb_beaten_bson", &calls.beaten_bson},
    {"mdb_facts", &calls.facts}, {"mdb_pool_facts", &calls.pool_facts},
};

/* The steps of one slot, whose memory its owner keeps in place. */
struct steps {
    PyObject_HEAD
    void *slot;
    PyObject *owner;
};

static void *slot_of(PyObject *self) {
    return ((struct steps *)self)->slot;
}

static mdb_status facts_of_driver(void *slot, mdb_fact *out, size_t room, size_t *count) {
    return calls.facts(slot, out, room, count);
}

static mdb_status facts_of_pool(void *slot, mdb_fact *out, size_t room, size_t *count) {
    return calls.pool_facts(slot, out, room, count);
}

static void drop(struct given *given) {
    Py_CLEAR(given->text[0].held);
    Py_CLEAR(given->text[1].held);
}

/* The numbers of a tuple of two, the first two of one of four. */
static int pair(PyObject *of, uint32_t *pool, uint32_t *id) {
    return PyTuple_Check(of) && PyTuple_Size(of) >= 2 ? narrow(PyTuple_GetItem(of, 0), pool) && narrow(PyTuple_GetItem(of, 1), id)
                                                      : (PyErr_SetString(PyExc_TypeError, "a connection is its pool and its number"), 0);
}

/* What establishing found out: pool, id, wire version and the server's number, of which the package tested the last two. */
static int made(PyObject *of, mdb_established_as *to) {
    if (!pair(of, &to->pool, &to->id)) return 0;
    to->wire = (int32_t)PyLong_AsLong(PyTuple_GetItem(of, 2));
    to->server_id = PyLong_AsLongLong(PyTuple_GetItem(of, 3));
    return !PyErr_Occurred();
}

/* Reads the arguments of a step by its shape; at 0 with an exception they are dropped. */
static int take(PyObject *args, const char *shape, struct given *given) {
    Py_ssize_t count = PyTuple_Size(args), next = 2;
    uint32_t *number = given->number;
    struct text *words = given->text;
    if (count != 2 + (Py_ssize_t)strlen(shape)) return PyErr_Format(PyExc_TypeError, "%zu arguments, and not %zd", 2 + strlen(shape), count), 0;
    int well = wide(PyTuple_GetItem(args, 0), &given->at.moment) && narrow(PyTuple_GetItem(args, 1), &given->at.seat);
    for (; well && *shape; shape++) {
        PyObject *value = PyTuple_GetItem(args, next++);
        switch (*shape) {
        case 'n': well = narrow(value, number++); break;
        case 'w': well = wide(value, &given->wide); break;
        case 't': well = text(value, words++); break;
        case 'c': well = pair(value, &given->connection.pool, &given->connection.id); break;
        default: well = made(value, &given->made);
        }
    }
    if (!well) drop(given);
    return well;
}

/* What a step comes to: its exception, or its reply with its facts, which are asked for where `told` has more than it has room for. */
static PyObject *done(PyObject *self, mdb_status status, const char *name, const mdb_told *told, facts_of call) {
    if (status != MDB_OK) return raised_by(status, name);
    PyObject *facts = told->count <= MDB_TOLD_FACTS ? told_facts(told) : all_facts(slot_of(self), call);
    return facts ? reply_with(&told->reply, facts) : NULL;
}

#define STEP(of, named, shape, call, out, ...)                                                                                                                 \
    static PyObject *of##_##named(PyObject *self, PyObject *args) {                                                                                            \
        struct given given = {0};                                                                                                                              \
        mdb_told told;                                                                                                                                         \
        if (!take(args, shape, &given)) return NULL;                                                                                                           \
        told.count = MDB_TOLD_FACTS + 1;                                                                                                                       \
        mdb_status status = calls.call(slot_of(self), &given.at, ##__VA_ARGS__, out);                                                                          \
        PyObject *reply = done(self, status, #named, &told, facts_of_##of);                                                                                    \
        drop(&given);                                                                                                                                          \
        return reply;                                                                                                                                          \
    }
#define PLAIN(name, shape, ...) STEP(driver, name, shape, name, &told.reply, ##__VA_ARGS__)
#define TOLD(name, shape, ...) STEP(driver, name, shape, name##_told, &told, ##__VA_ARGS__)
#define POOL(name, shape, ...) STEP(pool, name, shape, pool_##name, &told, ##__VA_ARGS__)
DRIVER_STEPS(PLAIN, TOLD)
POOL_STEPS(POOL)
#undef PLAIN
#undef TOLD
#undef POOL

static PyObject *driver_line(PyObject *self, PyObject *args) {
    uint32_t seat;
    struct text line = {0};
    mdb_told told;
    if (!PyArg_ParseTuple(args, "O&O&", narrow, &seat, text, &line)) return NULL;
    mdb_status status = calls.line_told(slot_of(self), seat, line.at, line.len, &told);
    PyObject *reply = status == MDB_OK ? done(self, status, "line", &told, facts_of_driver) : raised(status, PyTuple_GetItem(args, 1));
    text(NULL, &line);
    return reply;
}

/* A step with a document: the moment, the seat, nanoseconds, the number of the pool, whether more replies come, the address and the document. */
static PyObject *document(PyObject *self, PyObject *args, const char *name, __typeof__(mdb_hello_bson) *call) {
    mdb_came came = {0};
    struct text address = {0}, bytes = {0};
    mdb_answered answered = {0};
    if (!PyArg_ParseTuple(args, "O&O&O&O&O&O&O&", wide, &came.moment, narrow, &came.seat, wide, &came.nanos, narrow, &came.pool, narrow, &came.more, text,
                          &address, text, &bytes))
        return NULL;
    mdb_status status = call(slot_of(self), &came, address.at, address.len, bytes.at, bytes.len, &answered);
    PyObject *facts = status == MDB_OK ? all_facts(slot_of(self), facts_of_driver) : NULL;
    text(NULL, &address);
    text(NULL, &bytes);
    if (status == MDB_BAD_DOCUMENT) return bad_document(&answered.bad);
    if (status != MDB_OK) return raised_by(status, name);
    return facts ? reply_with(&answered.reply, facts) : NULL;
}

static PyObject *driver_hello_bson(PyObject *self, PyObject *args) {
    return document(self, args, "hello_bson", calls.hello_bson);
}

static PyObject *driver_beaten_bson(PyObject *self, PyObject *args) {
    return document(self, args, "beaten_bson", calls.beaten_bson);
}

static PyObject *driver_facts(PyObject *self, PyObject *none) {
    (void)none;
    return all_facts(slot_of(self), facts_of_driver);
}

static PyObject *pool_facts(PyObject *self, PyObject *none) {
    (void)none;
    return all_facts(slot_of(self), facts_of_pool);
}

/* ---- the two types and the module */

static PyObject *steps_new(PyTypeObject *type, PyObject *args, PyObject *named) {
    PyObject *address, *owner;
    static char *words[] = {"address", "owner", NULL};
    if (!PyArg_ParseTupleAndKeywords(args, named, "OO", words, &address, &owner)) return NULL;
    void *slot = PyLong_AsVoidPtr(address);
    if (!slot) return PyErr_Occurred() ? NULL : (PyErr_SetString(PyExc_ValueError, "no slot"), NULL);
    struct steps *self = (struct steps *)PyType_GenericAlloc(type, 0);
    if (!self) return NULL;
    Py_INCREF(owner);
    self->slot = slot;
    self->owner = owner;
    return (PyObject *)self;
}

static void steps_free(PyObject *self) {
    PyTypeObject *type = Py_TYPE(self);
    Py_XDECREF(((struct steps *)self)->owner);
    ((freefunc)PyType_GetSlot(type, Py_tp_free))(self);
    Py_DECREF(type);
}

static PyMethodDef driver_methods[] = {
#define METHOD(name, ...) {#name, driver_##name, METH_VARARGS, NULL},
    DRIVER_STEPS(METHOD, METHOD)
#undef METHOD
    {"line", driver_line, METH_VARARGS, NULL},
    {"hello_bson", driver_hello_bson, METH_VARARGS, NULL},
    {"beaten_bson", driver_beaten_bson, METH_VARARGS, NULL},
    {"facts", driver_facts, METH_NOARGS, NULL},
    {NULL, NULL, 0, NULL},
};

static PyMethodDef pool_methods[] = {
#define METHOD(name, ...) {#name, pool_##name, METH_VARARGS, NULL},
    POOL_STEPS(METHOD)
#undef METHOD
    {"facts", pool_facts, METH_NOARGS, NULL},
    {NULL, NULL, 0, NULL},
};

static PyType_Slot driver_slots[] = {{Py_tp_new, steps_new}, {Py_tp_dealloc, steps_free}, {Py_tp_methods, driver_methods}, {0, NULL}};
static PyType_Slot pool_slots[] = {{Py_tp_new, steps_new}, {Py_tp_dealloc, steps_free}, {Py_tp_methods, pool_methods}, {0, NULL}};
static PyType_Spec driver_spec = {"mdb._compiled.DriverSteps", sizeof(struct steps), 0, Py_TPFLAGS_DEFAULT, driver_slots};
static PyType_Spec pool_spec = {"mdb._compiled.PoolSteps", sizeof(struct steps), 0, Py_TPFLAGS_DEFAULT, pool_slots};

/* bind(addresses, names): called once, before the first step. */
static PyObject *bind(PyObject *module, PyObject *args) {
    PyObject *addresses, *given;
    (void)module;
    if (!PyArg_ParseTuple(args, "O!O!", &PyDict_Type, &addresses, &PyTuple_Type, &given)) return NULL;
    for (size_t i = 0; i < sizeof places / sizeof *places; i++) {
        PyObject *address = PyDict_GetItemString(addresses, places[i].name);
        void *at = address ? PyLong_AsVoidPtr(address) : NULL;
        if (!at) return PyErr_Occurred() ? NULL : PyErr_Format(PyExc_ImportError, "no function %s", places[i].name);
        memcpy(places[i].at, &at, sizeof at);
    }
    if (!take_names(given)) return NULL;
    Py_INCREF(Py_None);
    return Py_None;
}

static PyMethodDef functions[] = {{"bind", bind, METH_VARARGS, NULL}, {NULL, NULL, 0, NULL}};
static struct PyModuleDef definition = {PyModuleDef_HEAD_INIT, "mdb._compiled", NULL, -1, functions, NULL, NULL, NULL, NULL};

PyMODINIT_FUNC PyInit__compiled(void) {
    PyObject *module = PyModule_Create(&definition), *driver = PyType_FromSpec(&driver_spec), *pool = PyType_FromSpec(&pool_spec);
    if (!module || !driver || !pool || PyModule_AddObject(module, "DriverSteps", driver) < 0) goto failed;
    driver = NULL; /* the module has it */
    if (PyModule_AddObject(module, "PoolSteps", pool) == 0) return module;
failed:
    Py_XDECREF(driver);
    Py_XDECREF(pool);
    Py_XDECREF(module);
    return NULL;
}
