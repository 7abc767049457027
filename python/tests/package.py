"""The installed package, and its documentation."""
import inspect
import os
import re
import subprocess
import sys
import typing
import venv
import zipfile

import arrowflow
from arrowflow import _library

from common import GROWING, PROGRAM, TOP, python, run

FOLDER = os.path.dirname(arrowflow.__file__)


def members(of):
    """The public functions of a class that are defined in the package."""
    for name, it in vars(of).items():
        call = it.fget if isinstance(it, property) else it
        if inspect.isfunction(call) and call.__code__.co_filename.startswith(FOLDER) and (name.startswith("__") or not name.startswith("_")):
            yield f"{of.__name__}.{name}", call, name


def public():
    """The public functions."""
    for name in arrowflow.__all__:
        it = getattr(arrowflow, name)
        if inspect.isfunction(it):
            yield name, it, name
        elif inspect.isclass(it) and it.__module__.startswith("arrowflow"):
            yield from members(it)


def annotations():
    """Each public function has annotations and a docstring, and each class a docstring."""
    bare, silent = [], []
    for name, call, short in public():
        signature = inspect.signature(call)
        takes = [it for it in signature.parameters.values() if it.name != "self"]
        if any(it.annotation is it.empty for it in takes) or signature.return_annotation is signature.empty:
            bare.append(name)
        if not call.__doc__ and not short.startswith("__"):
            silent.append(name)
    yield "functions without annotations", bare, []
    yield "functions without a description", silent, []
    classes = [it for it in map(lambda it: getattr(arrowflow, it), arrowflow.__all__) if inspect.isclass(it)]
    yield "classes without a description", [it.__name__ for it in classes if not it.__doc__], []
    yield "the mark of types", (TOP / "python/arrowflow/py.typed").is_file(), True
    hints = [name for name, call, _ in public() if not typing.get_type_hints(call)]
    yield "annotations that are not read", hints, []
    yield "names that are not there", [it for it in arrowflow.__all__ if not hasattr(arrowflow, it)], []


def page():
    """What `help(arrowflow)` shows has each name, and the lines for other libraries."""
    for it in ("pyarrow.table(", "polars.DataFrame(", "duckdb.sql(", "ArrowflowError", "Limits", "ALL_TYPES",
            "python -m arrowflow"):
        yield f"help has {it}", it in arrowflow.__doc__, True
    text, _, status = python("-c", "import arrowflow; help(arrowflow)", env={**os.environ, "PYTHONPATH": str(TOP / "python")})
    for it in (b"class Stream", b"class Reader", b"class Column", b"class Kind", b"    open(", b"sanitize_pieces"):
        yield f"help shows {it.decode()}", (it in text, status), (True, 0)


def program(room):
    """The command-line program with wrong arguments, and as a part of a pipe."""
    env = {**os.environ, "PYTHONPATH": str(TOP / "python")}
    for words in ([], ["show"], ["show", "a", "b"], ["sanitize", "a"], ["read", "a"], ["--types", "none", "show", GROWING]):
        text, said, status = python("-m", "arrowflow", *words, env=env)
        yield f"python -m arrowflow {words}", (text, said.startswith(b"usage: "), status), (b"", True, 2)
    for words in (["show", "no such file"], ["sanitize", "no such file", "none"], ["sanitize", GROWING, TOP]):
        text, said, status = python("-m", "arrowflow", *words, env=env)
        yield f"python -m arrowflow {words}", (text, said.startswith(b"arrowflow: [Errno"), status), (b"", True, 2)
    same = room / "same.arrows"
    same.write_bytes(GROWING.read_bytes())
    text, said, status = python("-m", "arrowflow", "sanitize", same, same, env=env)
    yield "the output is the input", (text, b"the output is the input" in said, status), (b"", True, 2)
    yield "which stays", same.read_bytes(), GROWING.read_bytes()
    piped = subprocess.run([sys.executable, "-B", "-m", "arrowflow", "sanitize", "-", "-"], input=GROWING.read_bytes(), env=env, capture_output=True)
    yield "a pipe", (piped.stdout, piped.stderr, piped.returncode), (arrowflow.sanitize(GROWING.read_bytes()), b"", 0)
    piped = subprocess.run([sys.executable, "-B", "-m", "arrowflow", "show", "-"], input=GROWING.read_bytes(), env=env, capture_output=True)
    yield "shown of a pipe", piped.stdout.decode(), arrowflow.show(GROWING.read_bytes())


def library():
    """Which library is loaded, and the error if it has another version or is missing."""
    def loads(**names):
        env = {it: value for it, value in os.environ.items() if it != "ARROWFLOW_LIBRARY"}
        return python("-c", "from arrowflow import _library; print(_library.PLACE)", env={**env,
            "PYTHONPATH": str(TOP / "python"), **names})
    built = f"{TOP}/c/out/lib/{_library.NAME}"
    yield "the library of a checkout", loads()[0].decode().strip(), built
    yield "a library that is named", loads(ARROWFLOW_LIBRARY=f"{TOP}/c/out/lib/libarrowflow.so")[0].decode().strip(), f"{TOP}/c/out/lib/libarrowflow.so"
    for it in ("/nowhere/libarrowflow.so", str(GROWING), "libc.so.6"):
        _, said, status = loads(ARROWFLOW_LIBRARY=it)
        yield f"a library that is {it}", (b"ImportError: the library of arrowflow" in said, status), (True, 1)


def other_version(room, compiler):
    """A library of another version is rejected."""
    names = "".join(f"void arrowflow_{it}(void) {{}}\n" for it in _library._CALLS if it != "version")
    (room / "other.c").write_text(f'const char *arrowflow_version(void) {{ return "9.9.9"; }}\n{names}')
    run(compiler, "-shared", "-fPIC", room / "other.c", "-o", room / "other.so")
    env = {**os.environ, "PYTHONPATH": str(TOP / "python"), "ARROWFLOW_LIBRARY": str(room / "other.so")}
    _, said, status = python("-c", "import arrowflow", env=env)
    yield "a library of another version", (b"is of version 9.9.9" in said, status), (True, 1)


def wheel(room):
    """The wheel is the same each time, and works without anything else of the repository."""
    made = []
    for folder in (room / "first", room / "second"):
        _, why, status = run(TOP / "c/build", "--wheel", folder)
        yield "c/build --wheel", (why, status), (b"", 0)
        made += folder.glob("*.whl")
    yield "the same wheel", made[0].read_bytes() == made[1].read_bytes(), True
    yield "its name", re.sub(r"manylinux_\d_\d+_", "", made[0].name), f"arrowflow-{arrowflow.__version__}-py3-none-x86_64.whl"
    with zipfile.ZipFile(made[0]) as file:
        names = file.namelist()
        yield "what it has", {"arrowflow/__init__.py", "arrowflow/py.typed", f"arrowflow/{_library.NAME}"} <= {*names}, True
        yield "what is no part of it", [it for it in names if "test" in it or "pyc" in it], []
    place = room / "installed"
    venv.create(place, with_pip=True)
    _, why, status = run(place / "bin/pip", "install", "--no-index", "--disable-pip-version-check", made[0])
    yield "pip install", (why, status), (b"", 0)
    env = {it: value for it, value in os.environ.items() if it not in ("PYTHONPATH", "ARROWFLOW_LIBRARY")}
    code = "import arrowflow, sys; print([it.num_rows for it in arrowflow.open(sys.argv[1])], arrowflow._library.PLACE, arrowflow.__version__)"
    text, why, status = run(place / "bin/python", "-c", code, GROWING, env=env, cwd=room)
    found = text.decode().split("]")
    yield "a stream there", (f"{found[0]}]", why, status), ("[3, 2, 2]", b"", 0)
    yield "its library", f"{place}/lib/" in found[1] and found[1].split()[0].endswith(f"/arrowflow/{_library.NAME}"), True
    shown = run(place / "bin/python", "-m", "arrowflow", "show", GROWING, env=env, cwd=room)
    yield "the program there", shown, run(PROGRAM, "show", GROWING)
    yield "pip check", run(place / "bin/pip", "check", "--disable-pip-version-check", env=env)[2], 0
    text = run(place / "bin/pip", "show", "--disable-pip-version-check", "arrowflow", env=env)[0].decode()
    yield "what pip shows", re.findall(r"^(?:Name|Version|License): (.*)$", text, re.M), ["arrowflow", arrowflow.__version__,
        "Apache-2.0"]
    yield "uninstalled", (run(place / "bin/pip", "uninstall", "-y", "arrowflow", env=env)[2],
        [*place.glob("lib/*/site-packages/arrowflow")]), (0, [])


def settings():
    """The version and the Python version in pyproject.toml."""
    text = (TOP / "python/pyproject.toml").read_text(encoding="utf-8")
    yield "Python", re.search(r'^requires-python = "(.*)"$', text, re.M)[1], ">= 3.9"
    yield "the version", ('version = { attr = "arrowflow._version.VERSION" }' in text, sys.version_info >= (3, 9)), (True, True)
    yield "nothing is asked for", re.search(r"^dependencies = (.*)$", text, re.M)[1], "[]"


def reading_inside():
    """No public method of a column takes memory addresses or offsets, which nothing would check."""
    names = [it for it in vars(arrowflow.Column) if not it.startswith("_")]
    yield "the public names of a column", sorted(names), ["buffers", "children", "dictionary", "format", "name", "null_count",
        "to_pylist", "type"]
