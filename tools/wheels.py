"""Writes the package for Python and the library for C into a wheel, which pip installs without compiling: `c/build --wheel` calls
it.

The wheel depends only on the files: its parts are in order, and each has the time of SOURCE_DATE_EPOCH, or of 1980 if that is not
set. Its tag says what the library needs of a system, which is read from the library itself: manylinux_2_N if it links nothing but
what the manylinux policy allows, and no symbol of glibc later than 2.N; otherwise linux. No tag says that the proved part is
compiled for processors of the level x86-64-v2: the page of the package does.
"""
import base64
import glob
import hashlib
import os
import platform
import re
import subprocess
import time
import zipfile

from tools import crates

TOP = crates.TOP
# The folder of the package.
FOLDER = f"{TOP}/python"

NAME = "arrowflow"
# The libraries that the policy lets a wheel link (PEP 600 and the profiles of auditwheel), restricted to those that C and Rust
# code links.
ALLOWED = {"libc.so.6", "libm.so.6", "libdl.so.2", "librt.so.1", "libpthread.so.0", "libgcc_s.so.1", "ld-linux-x86-64.so.2"}
# The licence, and the list of third-party licences if there is one.
LICENCES = tuple(it for it in ("LICENSE", "THIRD_PARTY.md") if os.path.isfile(f"{TOP}/{it}"))
# No tag of manylinux is for an earlier glibc.
FIRST_GLIBC = (2, 5)
METADATA = """Metadata-Version: 2.1
Name: {name}
Version: {version}
Summary: Arrow IPC streams from strangers: read, checked, written again clean, and handed on to other Arrow libraries
License: Apache-2.0
Classifier: License :: OSI Approved :: Apache Software License
Classifier: Operating System :: POSIX :: Linux
Classifier: Programming Language :: Python :: 3
Classifier: Typing :: Typed
Requires-Python: >=3.9
{licences}
Description-Content-Type: text/plain

{description}"""
WHEEL = """Wheel-Version: 1.0
Generator: {name} wheels
Root-Is-Purelib: false
Tag: {tag}
"""


def read(path):
    with open(path, "rb") as it:
        return it.read()


def output_of(*words):
    return subprocess.run(words, check=True, capture_output=True, text=True).stdout


def needed_by(file):
    """The names of the libraries that a program or a library links."""
    return set(re.findall(r"^\s*NEEDED\s+(\S+)$", output_of("objdump", "-p", file), re.M))


def glibc_of(file):
    """The earliest glibc that has everything that a program or a library needs of it, as two numbers."""
    symbols = re.findall(r"\bGLIBC_(\d+)\.(\d+)", output_of("objdump", "-T", file))
    return max([FIRST_GLIBC, *((int(major), int(minor)) for major, minor in symbols)])


def platform_of(library):
    """The platform that a library is for, as the tag of a wheel names it."""
    machine = platform.machine()
    if machine != "x86_64" or not needed_by(library) <= ALLOWED or re.search(r"\b(GCC|GLIBCXX|CXXABI)_\d", output_of("objdump", "-p", library)):
        return f"linux_{machine}"
    major, minor = glibc_of(library)
    return f"manylinux_{major}_{minor}_{machine}"


def metadata(its_version):
    """The metadata that pip and other tools read about the package."""
    licences = "\n".join(f"License-File: {it}" for it in LICENCES)
    return METADATA.format(name=NAME, version=its_version, licences=licences, description=description()).encode()


def description():
    """The text of the package's page: the beginning of `help(arrowflow)`."""
    return re.match(r'"""(.*?)"""', read(f"{FOLDER}/{NAME}/__init__.py").decode(), re.S)[1]


def parts(prefix, its_version, tag):
    """The files of the wheel keyed by their names in it, except the list of them."""
    info, library = f"{NAME}-{its_version}.dist-info", f"libarrowflow.so.{its_version.split('.')[0]}"
    found = {f"{NAME}/{os.path.basename(it)}": read(it) for it in glob.glob(f"{FOLDER}/{NAME}/*.py")}
    found[f"{NAME}/py.typed"] = read(f"{FOLDER}/{NAME}/py.typed")
    found[f"{NAME}/{library}"] = read(f"{prefix}/lib/{library}")
    found.update({f"{info}/{it}": read(f"{TOP}/{it}") for it in LICENCES})
    found[f"{info}/METADATA"] = metadata(its_version)
    found[f"{info}/WHEEL"] = WHEEL.format(name=NAME, tag=tag).encode()
    return found, f"{info}/RECORD"


def sum_of(content):
    return base64.urlsafe_b64encode(hashlib.sha256(content).digest()).rstrip(b"=").decode()


def write(file, files):
    """Writes files, keyed by their names, into a zip file that depends on nothing else."""
    at = time.gmtime(max(int(os.environ.get("SOURCE_DATE_EPOCH", 0)), 315_532_800))[:6]
    with zipfile.ZipFile(file, "w", zipfile.ZIP_DEFLATED) as out:
        for name, content in files:
            about = zipfile.ZipInfo(name, at)
            about.compress_type, about.create_system = zipfile.ZIP_DEFLATED, 3
            about.external_attr = (0o100755 if ".so" in name else 0o100644) << 16
            out.writestr(about, content)


def make(prefix, folder):
    """Makes the wheel in this folder, with the library that was built into prefix/lib; returns its name."""
    its_version = crates.version()
    library = f"{prefix}/lib/libarrowflow.so.{its_version.split('.')[0]}"
    tag = f"py3-none-{platform_of(library)}"
    found, record = parts(prefix, its_version, tag)
    lines = [f"{name},sha256={sum_of(content)},{len(content)}\n" for name, content in sorted(found.items())]
    os.makedirs(folder, exist_ok=True)
    made = f"{folder}/{NAME}-{its_version}-{tag}.whl"
    write(made, [*sorted(found.items()), (record, "".join([*lines, f"{record},,\n"]).encode())])
    return made
