"""Writes archives whose bytes depend only on what is in them: in order, with one time, and owned by root."""
import gzip
import hashlib
import io
import stat
import tarfile
import zipfile
from datetime import datetime, timezone

from common import release_time


def mode_of(path):
    """Returns the mode of a file in an archive: that everyone may read it, and run it if its owner may."""
    return 0o755 if path.is_dir() or path.stat().st_mode & stat.S_IXUSR else 0o644


def member_of(path, name):
    """Returns the header of a file in an archive."""
    member = tarfile.TarInfo(name)
    member.mtime, member.uname, member.gname = release_time(), "root", "root"
    if path.is_symlink():
        member.type, member.linkname, member.mode = tarfile.SYMTYPE, str(path.readlink()), 0o777
    elif path.is_dir():
        member.type, member.mode = tarfile.DIRTYPE, 0o755
    else:
        member.size, member.mode = path.stat().st_size, mode_of(path)
    return member


def compressed(data):
    """Returns the bytes in gzip's form, with no name and no time."""
    packed = io.BytesIO()
    with gzip.GzipFile(filename="", mode="wb", fileobj=packed, compresslevel=9, mtime=0) as file:
        file.write(data)
    return packed.getvalue()


def write_tar(to, folder, top):
    """Writes a folder to a compressed archive, under the name `top`."""
    plain = io.BytesIO()
    with tarfile.open(fileobj=plain, mode="w", format=tarfile.GNU_FORMAT) as archive:
        for path in [folder, *sorted(folder.rglob("*"))]:
            member = member_of(path, f"{top}/{path.relative_to(folder)}" if path != folder else top)
            if member.isreg():
                with path.open("rb") as file:
                    archive.addfile(member, file)
            else:
                archive.addfile(member)
    to.write_bytes(compressed(plain.getvalue()))


def write_zip(to, files):
    """Writes an archive of names and bytes, in the order given."""
    time = datetime.fromtimestamp(release_time(), timezone.utc).timetuple()[:6]
    with zipfile.ZipFile(to, "w", zipfile.ZIP_DEFLATED) as archive:
        for name, data in files.items():
            entry = zipfile.ZipInfo(name, time)
            entry.external_attr, entry.create_system = (stat.S_IFREG | 0o644) << 16, 3
            archive.writestr(entry, data, zipfile.ZIP_DEFLATED, 9)


def sum_of(path):
    """Returns the SHA-256 of a file."""
    return hashlib.sha256(path.read_bytes()).hexdigest()
