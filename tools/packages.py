"""Makes archives whose octets depend only on their files and one time: a tarball, and the description that makes it a
source package for Debian. For tools/release. A file is its name, its octets and its mode."""
import gzip
import hashlib
import io
import os
import tarfile


def folders_of(names):
    """The folders that files stand in, each before what is in it."""
    found = {}
    for name in names:
        while os.path.dirname(name):
            name = os.path.dirname(name)
            found[name] = True
    return sorted(found)


def tarball(files, when, top):
    """A gzipped tar archive of files, each below a folder."""
    entries = {f"{top}/{name}": (octets, mode) for name, octets, mode in files}
    packed = io.BytesIO()
    with tarfile.open(fileobj=packed, mode="w", format=tarfile.USTAR_FORMAT) as out:
        for name in folders_of(entries):
            entry = tarfile.TarInfo(name)
            entry.type, entry.mode, entry.mtime = tarfile.DIRTYPE, 0o755, when
            out.addfile(entry)
        for name, (octets, mode) in sorted(entries.items()):
            entry = tarfile.TarInfo(name)
            entry.size, entry.mode, entry.mtime = len(octets), mode, when
            out.addfile(entry, io.BytesIO(octets))
    return gzip.compress(packed.getvalue(), mtime=0)


def debian_source(control, version, name, octets):
    """What a .dsc says of a source package of one tarball, by its debian/control."""
    of = dict(line.split(": ", 1) for line in control.splitlines() if ": " in line)
    sums = {"Checksums-Sha1": hashlib.sha1, "Checksums-Sha256": hashlib.sha256, "Files": hashlib.md5}
    told = {"Format": "3.0 (native)", "Source": of["Source"], "Binary": of["Package"], "Architecture": of["Architecture"]}
    told |= {"Version": version, **{it: of[it] for it in ("Maintainer", "Standards-Version", "Build-Depends")}}
    told |= {"Package-List": f"\n {of['Package']} deb {of['Section']} {of['Priority']} arch={of['Architecture']}"}
    told |= {it: f"\n {summed(octets).hexdigest()} {len(octets)} {name}" for it, summed in sums.items()}
    return "".join(f"{it}: {what}\n".replace(": \n", ":\n") for it, what in told.items()).encode()
