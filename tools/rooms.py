"""Makes a folder with the packages of tools/release, and a separate Debian in a folder, in which commands run, for
tools/check_release and tools/check_bare. mmdebstrap makes that Debian, which is kept in out/ for the next run."""
import glob
import os
import shutil
import subprocess
import sys
import tempfile

TOP = os.path.dirname(os.path.dirname(os.path.realpath(__file__)))
PATH, SYSTEM = "/usr/bin:/bin", "/usr/sbin:/sbin"


def text_of(file):
    with open(f"{TOP}/{file}", encoding="utf-8") as it:
        return it.read()


def octets_of(file):
    with open(file, "rb") as it:
        return it.read()


class Room:
    """A folder with the packages, and nothing of the toolchain on the way to its programs."""

    where, python = "", sys.executable

    def __init__(self, folder):
        self.folder, self.packages = folder, f"{folder}/packages"
        self.env = {"PATH": PATH, "HOME": folder, "LANG": "C.UTF-8"}

    def say(self, name, wrong):
        for it in wrong:
            print(f"    {it}")
        print(f"{self.where}{name}: {'failed' if wrong else 'passed'}", flush=True)

    def leave_out(self, name, what):
        print(f"{self.where}{name}: left out, since there is no {what}.", flush=True)

    def has(self, program):
        return shutil.which(program, path=PATH) is not None

    def empty(self):
        """An empty folder."""
        return tempfile.mkdtemp(dir=self.folder)

    def taken(self, file):
        """A copy of a file of the repository."""
        return shutil.copy(f"{TOP}/{file}", self.empty())

    def run(self, *words, cwd=None, stdin=None, **env):
        """The status of a program, and what it wrote."""
        how = {"cwd": cwd or self.folder, "env": {**self.env, **env}, "stdin": stdin or subprocess.DEVNULL}
        ran = subprocess.run(words, stdout=subprocess.PIPE, stderr=subprocess.STDOUT, text=True, check=False, **how)
        return ran.returncode, ran.stdout

    def wrong(self, *words, **how):
        """What is wrong where a program does not end well."""
        status, said = self.run(*words, **how)
        return [] if status == 0 else [*said.splitlines()[-20:], f"status {status}: {' '.join(words)}"]

    def unless_says(self, wanted, *words, **how):
        status, said = self.run(*words, **how)
        well = (status, said) == (0, wanted)
        return [] if well else [f"status {status}, and not what is wanted:", *said.splitlines()]

    def package(self, pattern):
        (found,) = glob.glob(f"{self.packages}/{pattern}")
        return found

    def unpacked(self, pattern):
        """The folder that a package has in it, unpacked into an empty one."""
        into = self.empty()
        wrong = self.wrong("tar", "xf", self.package(pattern), "-C", into)
        return f"{into}/{os.listdir(into)[0]}" if not wrong else into

    def cargo(self):
        """cargo, if there is one, and what it is given besides."""
        cargo = shutil.which("cargo")
        env = {it: os.environ[it] for it in ("RUSTUP_HOME", "CARGO_HOME") if it in os.environ}
        return cargo, {**env, "HOME": os.path.expanduser("~"), "PATH": f"{os.path.dirname(cargo or '')}:{PATH}"}

    def installed(self):
        """Where the package for Debian is, unpacked, and what was wrong."""
        here = self.empty()
        return f"{here}/usr", self.wrong("dpkg-deb", "--extract", self.package("*_amd64.deb"), here)


class Debian(Room):
    """The same in a Debian of its own, in a folder. The room's folder has the same name there, since here it is a link
    into that."""

    python = "python3"

    def __init__(self, root, folder, where):
        super().__init__(folder)
        self.where = f"{where}: "
        os.makedirs(f"{root}{folder}")
        os.symlink(f"{root}{folder}", folder)
        inside = 'mount --rbind /dev "$0/dev" && mount -t proc proc "$0/proc" && exec chroot "$0" "$@"'
        as_root = ["--map-root-user"] * (os.geteuid() != 0)
        apart = ("unshare", *as_root, "--mount", "--pid", "--fork")
        self.enter = (*apart, "sh", "-c", inside, root)
        if os.geteuid() == 0 and subprocess.run([*apart, "true"], stderr=subprocess.DEVNULL, check=False).returncode:
            self.enter = ("chroot", root)  # (without /proc, where nothing may be mounted)

    def has(self, program):
        return self.run("sh", "-c", f"command -v {program}")[0] == 0

    def run(self, *words, cwd=None, stdin=None, **env):
        given = [f"{name}={it}" for name, it in {**self.env, **env}.items()]
        words = (*self.enter, "env", "-i", "-C", cwd or self.folder, *given, *words)
        return super().run(*words, stdin=stdin, PATH=f"{PATH}:{SYSTEM}")

    def cargo(self):
        return "cargo", {}

    def installed(self):
        return "/usr", self.wrong("dpkg", "-i", self.package("*_amd64.deb"), PATH=f"{PATH}:{SYSTEM}")


# ---- A Debian of its own. ----

# What each program here stands on, and what the packages are tried with besides.
SUITE, NEEDED = "trixie", ("gcc", "libc6-dev", "python3")
BESIDES = ("make", "cmake", "pkgconf", "python3-venv", "cargo", "debhelper")
SECONDS = 400
KEPT = f"{TOP}/out/debian.tar{'.zst' * bool(shutil.which('zstd'))}"
MAKE = f"""\
rm -f "$1"
timeout {SECONDS} mmdebstrap --variant=minbase --include={','.join(NEEDED + BESIDES)} {SUITE} "$1" && mv "$1" "$2"
"""


def begun():
    """What makes the Debian, beside other tests, if none is kept; or nothing where mmdebstrap is not installed."""
    is_kept = os.path.isfile(KEPT) and os.path.getmtime(KEPT) > os.path.getmtime(__file__)
    if not is_kept and shutil.which("mmdebstrap") is None:
        return None
    os.makedirs(os.path.dirname(KEPT), exist_ok=True)
    new = f"{TOP}/out/new.{os.path.basename(KEPT)}"
    words = ["true"] if is_kept else ["sh", "-c", MAKE, "sh", new, KEPT]
    how = {"stdin": subprocess.DEVNULL, "stdout": subprocess.PIPE, "stderr": subprocess.STDOUT, "text": True}
    return subprocess.Popen(words, **how)


def entered(making, folder, where):
    """A room in the Debian, unpacked below a folder, or None, where it says why it is left out."""
    wrong = ["mmdebstrap is not installed"]
    if making is not None:
        said = making.communicate()[0].splitlines()
        wrong = [*said[-1:], f"mmdebstrap: status {making.returncode}"] if making.returncode != 0 else []
    if not wrong:
        root = f"{folder}/root"
        os.mkdir(root)
        devices = [] if os.geteuid() == 0 else ["--no-same-owner", "--exclude=./dev/*"]
        wrong = Room(folder).wrong("tar", "-C", root, *devices, "-xf", KEPT)
    inside = None if wrong else Debian(root, f"{folder}/inside", where)
    wrong = wrong or inside.wrong("true")
    if wrong:
        print(f"{where} is left out:", *wrong, sep="\n    ", flush=True)
        return None
    return inside
