/* A program with Python in it, which ends and begins again: the package is imported each time, and by no second interpreter,
 * whether it has a lock of its own or not. Silent where all is well; PYTHONPATH leads to the package. */
#define PY_SSIZE_T_CLEAN
#include <Python.h>

static const char first[] = "import simd_json\n"
                            "assert simd_json.loads('[{\"key\":1.5}]') == [{'key': 1.5}]\n"
                            "try:\n"
                            "    simd_json.check(b'[1,]')\n"
                            "except simd_json.SimdJsonError as error:\n"
                            "    assert error.pos == 3\n"
                            "else:\n"
                            "    raise AssertionError\n";
static const char again[] = "import sys\n"
                            "for name in [name for name in sys.modules if name.startswith('simd_json')]:\n"
                            "    del sys.modules[name]\n"
                            "import simd_json\n"
                            "assert simd_json.Parser().loads('{\"key\":[]}') == {'key': []}\n"
                            "assert simd_json.Fields(['/key', '']).get('{\"key\":[]}') == ([], {'key': []})\n";
static const char other[] = "try:\n"
                            "    import simd_json\n"
                            "except ImportError as error:\n"
                            "    assert 'interpreter' in str(error), error\n"
                            "else:\n"
                            "    raise AssertionError('another interpreter imports it')\n";

static int failed;

static void run(const char *code) { failed |= PyRun_SimpleString(code) != 0; }

static void run_in_other(void) {
    PyThreadState *here = PyThreadState_Get(), *there = Py_NewInterpreter();
    run(other);
    Py_EndInterpreter(there);
    PyThreadState_Swap(here);
}

static void run_in_isolated(void) {
#if PY_VERSION_HEX >= 0x030c0000
    PyThreadState *here = PyThreadState_Get(), *there = NULL;
    PyInterpreterConfig config = {.check_multi_interp_extensions = 1, .gil = PyInterpreterConfig_OWN_GIL};
    if (PyStatus_Exception(Py_NewInterpreterFromConfig(&there, &config))) {
        failed = 1;
        return;
    }
    run(other);
    Py_EndInterpreter(there);
    PyThreadState_Swap(here);
#endif
}

int main(void) {
    for (int round = 0; round < 3; round++) {
        Py_Initialize();
        run_in_isolated();
        run(first);
        run_in_other();
        run_in_isolated();
        run(first);
        run(again);
        run_in_other();
        failed |= Py_FinalizeEx() != 0;
    }
    return failed;
}
