"""Writes folders, tar archives and Debian packages of entries. Of the same entries and the same time the octets are the same."""

import collections
import contextlib
import gzip
import hashlib
import io
import os
import tarfile

# A file of a package: its path below the prefix, its octets and its mode; or the path that a symbolic link holds.
Entry = collections.namedtuple("Entry", "path content mode target", defaults=(b"", 0o644, None))


def folders_of(paths):
    """Returns the folders that these paths need, each before what is in it."""
    found = set()
    for path in paths:
        while path := os.path.dirname(path):
            found.add(path)
    return sorted(found)


def zipped(octets):
    """Returns these octets compressed, without a name and a time."""
    return gzip.compress(octets, mtime=0)


def tar_of(entries, top, when):
    """Returns the octets of a tar archive that has these entries below the folder `top`, all of that time and owned by root."""
    written = io.BytesIO()
    placed = {f"{top}/{entry.path}": entry for entry in entries}
    with tarfile.open(fileobj=written, mode="w", format=tarfile.GNU_FORMAT) as tar:
        for path in sorted([*folders_of(placed), *placed]):
            entry, info = placed.get(path, Entry(path)), tarfile.TarInfo(path)
            info.mtime, info.uname, info.gname = when, "root", "root"
            if path not in placed:
                info.type, info.mode = tarfile.DIRTYPE, 0o755
            elif entry.target is not None:
                info.type, info.mode, info.linkname = tarfile.SYMTYPE, 0o777, entry.target
            else:
                info.mode, info.size = entry.mode, len(entry.content)
            tar.addfile(info, io.BytesIO(entry.content))
    return written.getvalue()


def ar_of(members, when):
    """Returns the octets of an `ar` archive of these names and octets."""
    found = b"!<arch>\n"
    for name, octets in members:
        found += f"{name:<16}{when:<12}{0:<6}{0:<6}{'100644':<8}{len(octets):<10}`\n".encode()
        found += octets + b"\n" * (len(octets) % 2)
    return found


def md5(octets):
    """Returns the checksum that a Debian package has for a file."""
    return hashlib.md5(octets, usedforsecurity=False).hexdigest()


def deb_of(entries, control, scripts, when):
    """Returns the octets of a Debian package (deb(5)) that puts these entries below /usr. `control` has the fields but the size, `scripts`
    the texts of the maintainer scripts by their names."""
    octets = sum(len(entry.content) for entry in entries)
    fields = {**control, "Installed-Size": str(-(-octets // 1024))}
    text = "".join(f"{name}: {value}\n" for name, value in fields.items())
    sums = "".join(f"{md5(entry.content)}  usr/{entry.path}\n" for entry in entries if entry.target is None)
    control_files = [Entry("control", text.encode()), Entry("md5sums", sums.encode())]
    control_files += [Entry(name, script.encode(), 0o755) for name, script in scripts.items()]
    parts = [("control", tar_of(control_files, ".", when)), ("data", tar_of(entries, "./usr", when))]
    members = [("debian-binary", b"2.0\n"), *((f"{name}.tar.gz", zipped(tar)) for name, tar in parts)]
    return ar_of(members, when)


def write_all(entries, folder):
    """Writes these entries below a folder. A file or link that is there is replaced."""
    for entry in entries:
        path = os.path.join(folder, entry.path)
        os.makedirs(os.path.dirname(path), exist_ok=True)
        part = f"{path}.part"
        with contextlib.suppress(FileNotFoundError):
            os.remove(part)
        if entry.target is not None:
            os.symlink(entry.target, part)
        else:
            with open(part, "wb") as file:
                file.write(entry.content)
            os.chmod(part, entry.mode)
        os.replace(part, path)
