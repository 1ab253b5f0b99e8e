"""Builds the package for Python of its source distribution, or of a clone of the repository (PEP 517): the two shared
libraries of the portable C, by the compiler CC, or cc, the wheel by python/wheel, and the source distribution. It needs
nothing else, and no network. What goes wrong ends the build with a message, which pip shows."""
import glob
import gzip
import io
import os
import re
import shlex
import subprocess
import sys
import tarfile
import tempfile

TOP = os.path.dirname(os.path.dirname(os.path.dirname(os.path.abspath(__file__))))
SOURCES = {"sedgechisel": [], "sedgechisel_nodes": ["c/memory/malloc.c"]}
NEEDED = "Install one, as by apt install gcc, or name it by CC, or install a wheel (docs/PYTHON.md)."
# The files of a source distribution. (tools/release adds ACCOUNT.)
PACKED = ("c/include/*.h", "c/portable/sedgechisel*.c", "c/memory/*.c", "python/sedgechisel/*.py",
          "python/sedgechisel/py.typed", "python/examples/*", "examples/commanding/*.py", "python/source/*.py",
          "python/wheel", "pyproject.toml", "docs/PYTHON.md", "ACCOUNT")


def compiled(name, room):
    """Makes a shared library, and returns its place."""
    to = f"{room}/lib{name}.so"
    compiler = os.environ.get("CC", "cc")
    command = [*shlex.split(compiler), "-std=c99", "-O2", "-fPIC", "-shared", "-Ic/include"]
    try:
        subprocess.run([*command, f"c/portable/{name}.c", *SOURCES[name], "-o", to], cwd=TOP, check=True)
    except OSError as why:
        sys.exit(f"sedgechisel: the C compiler {compiler} does not start: {why.strerror}. {NEEDED}")
    except subprocess.CalledProcessError as why:
        sys.exit(f"sedgechisel: the C compiler {compiler} ended with status {why.returncode}. {NEEDED}")
    return to


def by_wheel(*words):
    """Returns what python/wheel writes, for libraries of portable C."""
    command = [sys.executable, f"{TOP}/python/wheel", "--portable", *words]
    return subprocess.run(command, stdout=subprocess.PIPE, encoding="utf-8", check=True).stdout


def prepare_metadata_for_build_wheel(metadata_directory, config_settings=None):
    """What the wheel says of itself, without a compiler: so pip refuses another version of Python by its number."""
    return os.path.basename(os.path.dirname(by_wheel("--about", metadata_directory)))


def build_wheel(wheel_directory, config_settings=None, metadata_directory=None):
    """Makes a wheel in a folder, and returns its name."""
    folder = os.path.abspath(wheel_directory)
    with tempfile.TemporaryDirectory() as room:
        return os.path.basename(by_wheel(folder, *(compiled(it, room) for it in SOURCES)).strip())


def build_editable(wheel_directory, config_settings=None, metadata_directory=None):
    """There is no editable installation: the package has its compiled libraries beside its modules."""
    sys.exit("sedgechisel: it is not installed with -e, since it has its compiled libraries beside its modules. Run"
             " `pip install FOLDER`, and again after a change.")


def build_sdist(sdist_directory, config_settings=None):
    """Makes a source distribution in a folder, and returns its name. Its octets depend on the files alone."""
    about = by_wheel("--metadata")
    name = f"sedgechisel-{re.search('^Version: (.*)$', about, re.M)[1]}"
    names = sorted({os.path.relpath(it, TOP) for one in PACKED for it in glob.glob(f"{glob.escape(TOP)}/{one}")})
    with open(f"{sdist_directory}/{name}.tar.gz", "wb") as file, gzip.GzipFile("", "wb", mtime=0, fileobj=file) as packed:
        with tarfile.open(mode="w", fileobj=packed) as out:
            for it in names:
                with open(f"{TOP}/{it}", "rb") as source:
                    put(out, f"{name}/{it}", source.read(), os.access(f"{TOP}/{it}", os.X_OK))
            put(out, f"{name}/PKG-INFO", about.encode())
    return f"{name}.tar.gz"


def put(out, name, octets, is_program=False):
    """Adds a file to an archive."""
    entry = tarfile.TarInfo(name)
    entry.size, entry.mode = len(octets), 0o755 if is_program else 0o644
    out.addfile(entry, io.BytesIO(octets))
