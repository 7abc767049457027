"""Makes the packages for Debian from a prefix with bin/, include/, lib/ and share/, for the script `release`.

There are four: the program, the library, the files that a caller in C builds with, and the module for Python, which calls the
library of the system. The templates of the files that dpkg reads of each are in packaging/debian: the control files, the scripts
that a package runs, the copyright file and the changelog; words in braces are filled in.
"""
import email.utils
import glob
import gzip
import hashlib
import os
import shutil
import subprocess

from tools import crates, wheels

TEMPLATES = f"{crates.TOP}/packaging/debian"
# Debian's name of the machine, the folder of its libraries, and the revision of the package of one version.
MACHINE, LIB, REVISION = "amd64", "lib/x86_64-linux-gnu", "1"
# The maintainer of the packages, unless Debian's own variables name one.
MAINTAINER = ("Atticoregano maintainers", "maintainers@users.noreply.atticoregano.example")


def template(name, fields):
    with open(f"{TEMPLATES}/{name}", encoding="utf-8") as it:
        return it.read().format(**fields).encode()


def packed(content):
    """A page or a changelog in the form that Debian's policy asks for: compressed, without a time."""
    return gzip.compress(content, 9, mtime=0)


def read(path):
    with open(path, "rb") as it:
        return it.read()


class Package:
    """A package, in a folder of its own, to which files are added."""

    def __init__(self, room, name, fields):
        self.name, self.root, self.fields = name, f"{room}/{name}", fields
        self.add("DEBIAN/control", b"")
        for it in ("changelog.Debian.gz", "changelog.gz", "copyright"):
            content = template("changelog", fields) if "Debian" in it else read(f"{crates.TOP}/CHANGELOG.md") if "gz" in it else template(it, fields)
            self.add(f"usr/share/doc/{name}/{it}", packed(content) if "gz" in it else content)

    def add(self, path, content, mode=0o644):
        place = f"{self.root}/{path}"
        os.makedirs(os.path.dirname(place), exist_ok=True)
        with open(place, "wb") as it:
            it.write(content)
        os.chmod(place, mode)

    def add_from(self, source, path, mode=0o644):
        """Adds a file, if it exists."""
        if os.path.isfile(source):
            self.add(path, read(source), mode)

    def add_pages(self, pattern, to):
        """Adds pages of a manual, compressed."""
        for it in glob.glob(pattern):
            self.add(f"{to}/{os.path.basename(it)}.gz", packed(read(it)))

    def link(self, target, path):
        os.makedirs(os.path.dirname(f"{self.root}/{path}"), exist_ok=True)
        os.symlink(target, f"{self.root}/{path}")

    def files(self):
        """The files that are installed, by their paths."""
        found = [f"{at}/{it}" for at, _, files in os.walk(self.root) for it in files]
        return sorted(os.path.relpath(it, self.root) for it in found if not it.startswith(f"{self.root}/DEBIAN/"))

    def finish(self, out, architecture=MACHINE):
        """Writes the package into a folder."""
        paths = [it for it in self.files() if not os.path.islink(f"{self.root}/{it}")]
        # kibibytes, each file rounded up, as dpkg counts them
        size = sum(-(-os.path.getsize(f"{self.root}/{it}") // 1024) for it in paths)
        source = self.name.replace(f"libarrowflow{self.fields['major']}", "libarrowflow")
        self.add("DEBIAN/control", template(f"{source}.control", {**self.fields, "size": size, "architecture": architecture}))
        self.add("DEBIAN/md5sums", "".join(f"{hashlib.md5(read(f'{self.root}/{it}')).hexdigest()}  {it}\n" for it in paths).encode())
        time = int(os.environ["SOURCE_DATE_EPOCH"])
        for at, folders, files in os.walk(self.root):
            os.chmod(at, 0o755)
            for it in (*folders, *files):
                os.utime(f"{at}/{it}", (time, time), follow_symlinks=False)
        os.utime(self.root, (time, time))
        made = f"{out}/{self.name}_{self.fields['debian']}_{architecture}.deb"
        # one thread, since the bytes depend on their number
        env = {**os.environ, "DPKG_DEB_THREADS_MAX": "1"}
        subprocess.run(["dpkg-deb", "--root-owner-group", "-Zxz", "--build", self.root, made], check=True, stdout=subprocess.DEVNULL, env=env)


def program(prefix, room, fields):
    it, share = Package(room, "arrowflow", fields), f"{prefix}/share"
    it.add_from(f"{prefix}/bin/arrowflow", "usr/bin/arrowflow", 0o755)
    it.add_pages(f"{share}/man/man1/*.1", "usr/share/man/man1")
    for source, path in (("bash-completion/completions/arrowflow", ) * 2, ("zsh/site-functions/_arrowflow", "zsh/vendor-completions/_arrowflow"),
                         ("fish/vendor_completions.d/arrowflow.fish", ) * 2):
        it.add_from(f"{share}/{source}", f"usr/share/{path}")
    return it


def library(prefix, room, fields, calls):
    """The library, and for packages that link it the file from which dpkg knows from which version on it has each of its calls."""
    major, version, name = fields["major"], fields["version"], f"libarrowflow{fields['major']}"
    it = Package(room, name, fields)
    it.add_from(f"{prefix}/lib/libarrowflow.so.{version}", f"usr/{LIB}/libarrowflow.so.{version}")
    it.link(f"libarrowflow.so.{version}", f"usr/{LIB}/libarrowflow.so.{major}")
    symbols = [f"ARROWFLOW_{major}@ARROWFLOW_{major} {version}", *(f"{call}@ARROWFLOW_{major} {version}" for call in calls)]
    lines = [f"libarrowflow.so.{major} {name} #MINVER#", "* Build-Depends-Package: libarrowflow-dev", *(f" {line}" for line in sorted(symbols))]
    it.add("DEBIAN/symbols", "".join(f"{line}\n" for line in lines).encode())
    it.add("DEBIAN/shlibs", f"libarrowflow {major} {name} (>= {version})\n".encode())
    it.add("DEBIAN/triggers", b"activate-noawait ldconfig\n")
    return it


def development(prefix, room, fields, package):
    it = Package(room, "libarrowflow-dev", fields)
    for header in sorted(os.listdir(f"{prefix}/include")):
        it.add_from(f"{prefix}/include/{header}", f"usr/include/{header}")
    it.add_from(f"{prefix}/lib/libarrowflow.a", f"usr/{LIB}/libarrowflow.a")
    it.link(f"libarrowflow.so.{fields['version']}", f"usr/{LIB}/libarrowflow.so")
    it.add(f"usr/{LIB}/pkgconfig/arrowflow.pc", package.encode())
    it.add_pages(f"{prefix}/share/man/man3/*.3", "usr/share/man/man3")
    return it


def module(room, fields):
    it, place = Package(room, "python3-arrowflow", fields), "usr/lib/python3/dist-packages"
    for file in sorted([*glob.glob(f"{wheels.FOLDER}/arrowflow/*.py"), f"{wheels.FOLDER}/arrowflow/py.typed"]):
        it.add_from(file, f"{place}/arrowflow/{os.path.basename(file)}")
    it.add(f"{place}/arrowflow-{fields['version']}.dist-info/METADATA", wheels.metadata(fields["version"]))
    for script in ("postinst", "prerm"):
        it.add(f"DEBIAN/{script}", read(f"{TEMPLATES}/python3-arrowflow.{script}"), 0o755)
    return it


def make(prefix, room, out, fields, build):
    """Makes the packages in a folder. `fields` are filled into the templates in addition to the version."""
    version = crates.version()
    major, name, mail = version.split(".", maxsplit=1)[0], os.environ.get("DEBFULLNAME", MAINTAINER[0]), os.environ.get("DEBEMAIL", MAINTAINER[1])
    date = email.utils.formatdate(int(os.environ["SOURCE_DATE_EPOCH"]))
    fields = {**fields, "version": version, "major": major, "debian": f"{version}-{REVISION}", "maintainer": f"{name} <{mail}>", "date": date}
    shutil.rmtree(room, ignore_errors=True)
    made = [program(prefix, room, fields), library(prefix, room, fields, build.calls(*build.HEADERS)),
            development(prefix, room, fields, build.package(LIB))]
    for it in made:
        # the text of the licence itself is where Debian has it
        it.add_from(f"{prefix}/share/doc/arrowflow/THIRD_PARTY.md", f"usr/share/doc/{it.name}/THIRD_PARTY.md")
        it.finish(out)
    module(room, fields).finish(out, "all")
