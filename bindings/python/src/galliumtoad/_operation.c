/* The module `_operation`: how a terminal in Python begins an operation, and the loop over a
 * transport that `Terminal.run` calls once for each. It keeps Python's lock, so no other thread
 * enters while the library works. */

#define Py_LIMITED_API 0x03090000
#include <Python.h>

#include "galliumtoad.h"

/* The calls of a level: they give what goes to the card, and take what comes back. */
typedef struct {
    int32_t (*due)(gt_terminal *, uint8_t *, size_t *, size_t *);
    int32_t (*take)(gt_terminal *, const uint8_t *, size_t);
} Level;

static const Level TPDUS = {gt_terminal_tpdu, gt_terminal_answered};
static const Level COMMANDS = {gt_terminal_apdu, gt_terminal_responded};

/* The operations. One without a tag has 0, and a get has no data. */
typedef enum { SELECT, GET, PUT, SEND } Kind;

/* An operation. `calls` are the calls of the handle in progress. `plain` copies what is no bytes.
 * `seen` gets 0 when it has begun, and then SW1 of each response to a whole command. */
typedef struct {
    gt_terminal *terminal;
    PyObject *calls, *plain, *transport, *seen;
    const Level *level;
} Operation;

/* What a step came to. At FAULT the code says why, at RAISED an exception is set. */
typedef enum { MOVED, ENDED, FAULT, RAISED } Step;

/* The bytes of a `bytes` or `bytearray`, which is kept meanwhile. */
typedef struct {
    PyObject *kept;
    const uint8_t *bytes;
    size_t count;
} Readable;

static const char IN_PROGRESS[] = "another call of this handle is in progress";

static void wipe(uint8_t *data, size_t count) {
    volatile uint8_t *place = data;
    while (count--) *place++ = 0;
}

/* Whether no call of the handle is in progress. If one is, it raises. */
static int is_free(const Operation *it) {
    Py_ssize_t count = PyList_Size(it->calls);
    if (count > 0) PyErr_SetString(PyExc_RuntimeError, IN_PROGRESS);
    return count == 0;
}

/* Sets `data` to the bytes that go to the card now. ENDED: none do. */
static Step ask(const Operation *it, PyObject **data, int32_t *code) {
    uint8_t bytes[GT_APDU_LIMIT > GT_TPDU_LIMIT ? GT_APDU_LIMIT : GT_TPDU_LIMIT];
    size_t count = 0, most = 0;
    if (!is_free(it)) return RAISED;
    *code = it->level->due(it->terminal, bytes, &count, &most);
    if (*code < 0) return *code == GT_NOT_DUE ? ENDED : FAULT;
    *data = PyBytes_FromStringAndSize((const char *)bytes, (Py_ssize_t)count);
    wipe(bytes, count);
    return *data ? MOVED : RAISED;
}

/* Whether the bytes of an object can be read: of any other than these two `plain` makes a copy. */
static int read_bytes(Readable *to, PyObject *of, PyObject *plain) {
    int is_array = PyByteArray_CheckExact(of);
    Py_ssize_t count;
    if (is_array || PyBytes_CheckExact(of)) {
        Py_INCREF(of);
        to->kept = of;
    } else {
        to->kept = PyObject_CallFunctionObjArgs(plain, of, NULL);
        if (!to->kept) return 0;
    }
    count = is_array ? PyByteArray_Size(to->kept) : PyBytes_Size(to->kept);
    to->bytes = (const uint8_t *)(is_array ? PyByteArray_AsString(to->kept)
                                           : PyBytes_AsString(to->kept));
    if (count >= 0 && to->bytes) {
        to->count = (size_t)count;
        return 1;
    }
    Py_DECREF(to->kept);
    return 0;
}

/* Adds a number to `seen`. */
static Step note(const Operation *it, uint8_t number) {
    PyObject *object = PyLong_FromLong(number);
    int is_wrong = !object || PyList_Append(it->seen, object);
    Py_XDECREF(object);
    return is_wrong ? RAISED : MOVED;
}

/* Takes what the transport returned. */
static Step take(const Operation *it, PyObject *answer, int32_t *code) {
    Readable read;
    Step step = RAISED;
    if (!read_bytes(&read, answer, it->plain)) return RAISED;
    if (is_free(it)) {
        *code = it->level->take(it->terminal, read.bytes, read.count);
        step = *code < 0 ? FAULT : MOVED;
    }
    /* a response that was taken has SW1 and SW2 */
    if (step == MOVED && it->level == &COMMANDS) step = note(it, read.bytes[read.count - 2]);
    Py_DECREF(read.kept);
    return step;
}

/* Sends the next bytes to the card, and takes its answer. */
static Step exchange(const Operation *it, int32_t *code) {
    PyObject *data = NULL, *answer;
    Step step = ask(it, &data, code);
    if (step != MOVED) return step;
    answer = PyObject_CallFunctionObjArgs(it->transport, data, NULL);
    Py_DECREF(data);
    if (!answer) return RAISED;
    step = take(it, answer, code);
    Py_DECREF(answer);
    /* a transport written in C looks at no signal */
    return PyErr_CheckSignals() ? RAISED : step;
}

/* The status and the data of the operation, which has ended. Long data are asked for twice. */
static PyObject *answer_of(const Operation *it) {
    uint8_t room[256];
    uint16_t status = 0;
    size_t count = 0;
    PyObject *data;
    int32_t code;
    if (!is_free(it)) return NULL;
    code = gt_terminal_answer(it->terminal, &status, room, sizeof room, &count);
    if (code < 0 && code != GT_BUFFER) return PyLong_FromLong(code);
    data = PyBytes_FromStringAndSize(code == GT_BUFFER ? NULL : (const char *)room,
                                     (Py_ssize_t)count);
    if (code != GT_BUFFER) wipe(room, count);
    if (!data) return NULL;
    if (code == GT_BUFFER) {
        code = gt_terminal_answer(it->terminal, &status, (uint8_t *)PyBytes_AsString(data), count,
                                  &count);
    }
    if (code < 0) {
        Py_DECREF(data);
        return PyLong_FromLong(code);
    }
    return Py_BuildValue("(iN)", (int)status, data);
}

static int32_t begin_kind(gt_terminal *terminal, long kind, uint32_t tag, const Readable *data) {
    switch (kind) {
    case SELECT: return gt_terminal_select(terminal, data->bytes, data->count);
    case GET: return gt_terminal_get(terminal, tag);
    case PUT: return gt_terminal_put(terminal, tag, data->bytes, data->count);
    default: return gt_terminal_send(terminal, data->bytes, data->count);
    }
}

/* Begins an operation of these words: its kind, its tag or 0, and its data. Sets the code. */
static Step begin_words(const Operation *it, PyObject *words, int32_t *code) {
    PyObject *kind = PyTuple_GetItem(words, 0);
    PyObject *tag = kind ? PyTuple_GetItem(words, 1) : NULL;
    PyObject *data = tag ? PyTuple_GetItem(words, 2) : NULL;
    long number = data ? PyLong_AsLong(kind) : -1;
    long tag_number = number < 0 ? -1 : PyLong_AsLong(tag);
    Readable read;
    Step step = RAISED;
    if (tag_number < 0 || !read_bytes(&read, data, it->plain)) return RAISED;
    if (is_free(it)) {
        *code = begin_kind(it->terminal, number, (uint32_t)tag_number, &read);
        step = *code < 0 ? FAULT : MOVED;
    }
    Py_DECREF(read.kept);
    return step;
}

static int read_terminal(Operation *it, PyObject *address) {
    it->terminal = (gt_terminal *)PyLong_AsVoidPtr(address);
    return it->terminal || !PyErr_Occurred();
}

PyDoc_STRVAR(begin_says,
             "begin(address, calls, plain, words)\n--\n\n"
             "Begins an operation at the terminal at this address, and returns the code.");

static PyObject *begin(PyObject *module, PyObject *given) {
    PyObject *address, *words;
    Operation it = {0};
    int32_t code = 0;
    (void)module;
    if (!PyArg_ParseTuple(given, "OO!OO!", &address, &PyList_Type, &it.calls, &it.plain,
                          &PyTuple_Type, &words) ||
        !read_terminal(&it, address) || begin_words(&it, words, &code) == RAISED) {
        return NULL;
    }
    return PyLong_FromLong(code);
}

PyDoc_STRVAR(run_says,
             "run(address, calls, plain, words, transport, seen, whole)\n--\n\n"
             "Begins an operation, and carries it out. Returns its status and data, or the code\n"
             "of a fault. `seen` gets 0 when it has begun, then SW1 of each whole response.");

static PyObject *run(PyObject *module, PyObject *given) {
    PyObject *address, *words;
    Operation it = {0};
    int32_t code = 0;
    int whole = 0;
    Step step;
    (void)module;
    if (!PyArg_ParseTuple(given, "OO!OO!OO!p", &address, &PyList_Type, &it.calls, &it.plain,
                          &PyTuple_Type, &words, &it.transport, &PyList_Type, &it.seen, &whole) ||
        !read_terminal(&it, address)) {
        return NULL;
    }
    it.level = whole ? &COMMANDS : &TPDUS;
    step = begin_words(&it, words, &code);
    if (step == MOVED) step = note(&it, 0);
    while (step == MOVED) step = exchange(&it, &code);
    if (step == RAISED) return NULL;
    return step == FAULT ? PyLong_FromLong(code) : answer_of(&it);
}

static PyMethodDef METHODS[] = {{"begin", begin, METH_VARARGS, begin_says},
                                {"run", run, METH_VARARGS, run_says},
                                {NULL, NULL, 0, NULL}};

static struct PyModuleDef MODULE = {PyModuleDef_HEAD_INIT, "_operation", NULL, 0, METHODS,
                                    NULL, NULL, NULL, NULL};

PyMODINIT_FUNC PyInit__operation(void) {
    PyObject *module = PyModule_Create(&MODULE);
    if (module && (PyModule_AddStringConstant(module, "IN_PROGRESS", IN_PROGRESS) ||
                   PyModule_AddIntMacro(module, SELECT) || PyModule_AddIntMacro(module, GET) ||
                   PyModule_AddIntMacro(module, PUT) || PyModule_AddIntMacro(module, SEND))) {
        Py_DECREF(module);
        return NULL;
    }
    return module;
}
