"""The package as others get it: its types, what it says of itself, wheels, and source distributions."""
import email
import importlib.metadata
import importlib.util
import os
import re
import runpy
import shutil
import subprocess
import sys
import tempfile

TOP = os.path.dirname(os.path.dirname(os.path.dirname(os.path.realpath(__file__))))


def text_of(name):
    with open(f"{TOP}/{name}", encoding="utf-8") as file:
        return file.read()


def import_without_a_library(it):
    """Without a shared library the import says what to install."""
    with tempfile.TemporaryDirectory() as folder:
        shutil.copytree(f"{sys.path[0]}/sedgechisel", f"{folder}/sedgechisel")
        os.remove(f"{folder}/sedgechisel/libsedgechisel_nodes.so")
        ran = subprocess.run([sys.executable, "-B", "-c", "import sedgechisel"], capture_output=True, text=True,
                             env={**os.environ, "PYTHONPATH": folder})
        for text in ("ImportError", "./install --wheel DIR", "libsedgechisel_nodes.so"):
            assert text in ran.stderr, ran.stderr


def a_build_that_cannot_be(it):
    """Without a compiler, and with -e, the build of a wheel ends with one line that says what to do."""
    for call, words in (("build_wheel", ("the C compiler /nowhere/cc does not start", "Install one")),
                        ("build_editable", ("it is not installed with -e", "pip install FOLDER"))):
        with tempfile.TemporaryDirectory() as folder:
            ran = subprocess.run([sys.executable, "-B", "-c", f"import backend; backend.{call}('.')"], cwd=folder,
                                 capture_output=True, text=True,
                                 env={**os.environ, "PYTHONPATH": f"{TOP}/python/source", "CC": "/nowhere/cc"})
        assert ran.returncode == 1 and ran.stderr.count("\n") == 1, ran.stderr
        assert all(one in ran.stderr for one in ("sedgechisel: ", *words)), ran.stderr


def types(it):
    """The package and each program of the documents pass mypy --strict, for the oldest Python that is served; and a
    parameter that is none does not."""
    with tempfile.TemporaryDirectory() as folder:
        programs = []
        for name in ("docs/PYTHON", "docs/TOUR", "docs/CONTROL", "README"):
            for program in re.findall(r"```python\n(.*?)```", open(f"{TOP}/{name}.md", encoding="utf-8").read(), re.S):
                programs.append(f"{folder}/{os.path.basename(name).lower()}_{len(programs)}.py")
                with open(programs[-1], "w", encoding="utf-8") as file:
                    file.write(program)
        assert len(programs) > 6
        programs += [f"{TOP}/python/examples/{name}.py" for name in ("reset", "restart", "failover")]
        programs += [f"{TOP}/examples/commanding/{name}.py" for name in ("ground", "board")]
        mypy = ("mypy", "--strict", "--python-version", "3.9", "--cache-dir", f"{folder}/kept")
        env = {**os.environ, "MYPYPATH": f"{TOP}/python:{TOP}/examples/commanding"}
        for words in ((f"{TOP}/python/sedgechisel",), programs):
            ran = subprocess.run([*mypy, *words], capture_output=True, text=True, env=env)
            assert ran.returncode == 0, ran.stdout + ran.stderr
        right = "import sedgechisel as sc\ndef both(one: sc.Octets) -> int:\n    return sc.check(one) + sc.check(memoryview(one))\n"
        subprocess.run([*mypy, "-c", f"{right}both(bytearray(2))"], capture_output=True, env=env, check=True)
        for call in ("Ground(windw=4)", "Spacecraft(timer='3')", "Link(config=3)", "check('1')"):
            ran = subprocess.run([*mypy, "-c", f"import sedgechisel as sc\nsc.{call}"], capture_output=True, text=True, env=env)
            assert ran.returncode == 1 and "1 error" in ran.stdout.replace("Found ", ""), call + ran.stdout + ran.stderr


def said_by_the_build(it):
    """What the package says of itself is the table of pyproject.toml, and of which build its libraries are."""
    table = runpy.run_path(f"{TOP}/python/wheel")["project"]()
    if importlib.util.find_spec("tomllib"):
        assert table == importlib.import_module("tomllib").loads(text_of("pyproject.toml"))["project"]
    for words, summary in (([], "a proved library"), (["--portable"], "portable C, which is tested, not proved")):
        ran = subprocess.run([f"{TOP}/python/wheel", *words, "--metadata"], capture_output=True, text=True, check=True)
        said = email.message_from_string(ran.stdout)
        assert said["Summary"] == f"The CCSDS telecommand link with COP-1, both ends, over {summary}"
        assert (said["Name"], said["Version"], said["Requires-Python"]) == ("sedgechisel", it.version, ">=3.9")
        assert said.get_all("Classifier") == table["classifiers"] and said["Keywords"] == ",".join(table["keywords"])
    assert importlib.metadata.version("sedgechisel") == it.version  # of what ./install puts in place


def wheel(it):
    """A wheel is made twice with the same octets, says of which build it is, and is installed without a network in an
    environment of its own. Of two builds pip takes the proved one."""
    with tempfile.TemporaryDirectory() as folder:
        wheels = []
        for place in ("one", "two"):
            ran = subprocess.run([f"{TOP}/install", "--wheel", f"{folder}/{place}"], capture_output=True, text=True)
            assert ran.returncode == 0, ran.stderr
            wheels.append(ran.stdout.split()[-1])
        assert open(wheels[0], "rb").read() == open(wheels[1], "rb").read()
        assert ("-1proved-" if shutil.which("rt") else "-0portable-") in os.path.basename(wheels[0])
        libraries = [f"{TOP}/out/c/lib{name}.so" for name in ("sedgechisel", "sedgechisel_nodes")]
        for words in ([], ["--portable"]):
            subprocess.run([f"{TOP}/python/wheel", *words, f"{folder}/both", *libraries], check=True, capture_output=True)
        subprocess.run([sys.executable, "-m", "venv", f"{folder}/venv"], check=True)
        python = f"{folder}/venv/bin/python"
        pip = (python, "-m", "pip", "--disable-pip-version-check")
        ran = subprocess.run([*pip, "install", "--no-index", "--quiet", "--find-links", f"{folder}/both", "sedgechisel"],
                             capture_output=True, text=True)
        assert ran.returncode == 0, ran.stdout + ran.stderr
        where = ("--no-index", "--no-deps", "--only-binary=:all:", "--find-links", f"{folder}/both", "-d", folder)
        for older, is_taken in (("3.9", True), ("3.8", False)):  # the oldest that is served, and the one before it
            ran = subprocess.run([*pip, "download", *where, "--python-version", older, "sedgechisel"], capture_output=True)
            assert (ran.returncode == 0) == is_taken, ran.stdout + ran.stderr
        program = "import sedgechisel; sedgechisel.Link().close(); print(sedgechisel.__version__, sedgechisel.__file__)"
        ran = subprocess.run([python, "-c", program], capture_output=True, text=True, cwd=folder,
                             env={name: value for name, value in os.environ.items() if name != "PYTHONPATH"})
        assert ran.stdout.startswith(f"{it.version} {folder}/venv/"), ran.stdout + ran.stderr
        for words, said in (("check", "No broken requirements"), (("show", "sedgechisel"), "over a proved library\n")):
            ran = subprocess.run([*pip, *([words] if isinstance(words, str) else words)], capture_output=True, text=True)
            assert ran.returncode == 0 and said in ran.stdout, ran.stdout + ran.stderr


def has_build():
    """A Python that has the program `build`."""
    for python in (sys.executable, "/usr/bin/python3"):
        if os.path.exists(python) and not subprocess.run([python, "-c", "import build"], capture_output=True).returncode:
            return python
    return None


def built(it):
    """`python -m build` makes a source distribution of this folder, and of that the same one, and a wheel."""
    with tempfile.TemporaryDirectory() as folder:
        place = TOP
        for name in ("one", "two"):
            ran = subprocess.run([has_build(), "-m", "build", "--no-isolation", "--outdir", f"{folder}/{name}", place],
                                 capture_output=True, text=True)
            assert ran.returncode == 0, ran.stdout + ran.stderr
            sources, made = sorted(os.listdir(f"{folder}/{name}"), reverse=True)
            assert (sources, made[:28]) == (f"sedgechisel-{it.version}.tar.gz", f"sedgechisel-{it.version}-0portable-"), made
            shutil.unpack_archive(f"{folder}/{name}/{sources}", folder)
            place = f"{folder}/sedgechisel-{it.version}"
        octets = [open(f"{folder}/{name}/{sources}", "rb").read() for name in ("one", "two")]
        assert octets[0] == octets[1]


def has_pip():
    return all(importlib.util.find_spec(name) for name in ("pip", "venv", "ensurepip"))


TESTS = (import_without_a_library, a_build_that_cannot_be, said_by_the_build)
# Tests that need what may not be there, and what that is.
FURTHER = ((types, lambda: shutil.which("mypy"), "mypy"), (wheel, has_pip, "pip"), (built, has_build, "build"))
