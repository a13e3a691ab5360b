"""A folder as a tarball and as a Debian package, which have the same bytes each time: names in order, one owner, one time, one thread."""
import hashlib
import io
import lzma
import os
import pathlib
import subprocess
import tarfile

TEXT, PROGRAM = 0o644, 0o755


def put(root: pathlib.Path, path: str, contents: bytes, mode: int = TEXT) -> None:
    """A file of the folder, with the folders above it."""
    file = root / path
    file.parent.mkdir(parents=True, exist_ok=True)
    file.write_bytes(contents)
    file.chmod(mode)


def files(root: pathlib.Path) -> list[pathlib.Path]:
    return sorted(it for it in root.rglob("*") if it.is_file())


def at_one_time(root: pathlib.Path, time: int) -> None:
    """Gives all of the folder this time, and its folders the one mode."""
    for it in [root, *root.rglob("*")]:
        if it.is_dir():
            it.chmod(PROGRAM)
        os.utime(it, (time, time), follow_symlinks=False)


def tarball(root: pathlib.Path, name: str, time: int) -> bytes:
    """The folder under another name, by xz."""
    inside = io.BytesIO()
    with tarfile.open(fileobj=inside, mode="w", format=tarfile.GNU_FORMAT) as tar:
        for it in [root, *sorted(root.rglob("*"))]:
            member = tar.gettarinfo(it, os.path.join(name, it.relative_to(root)).removesuffix("/."))
            member.uid = member.gid = 0
            member.uname = member.gname = "root"
            member.mtime = time
            if member.isfile():
                with it.open("rb") as file:
                    tar.addfile(member, file)
            else:
                tar.addfile(member)
    return lzma.compress(inside.getvalue(), preset=6)


def debian(root: pathlib.Path, control: dict[str, str], scripts: dict[str, bytes], kept: list[str], file: pathlib.Path, time: int) -> None:
    """The folder as a Debian package: fields of its control file, its scripts, and the files that are the machine's once it is installed."""
    sums = "".join(f"{hashlib.md5(it.read_bytes()).hexdigest()}  {it.relative_to(root)}\n" for it in files(root))
    size = sum(-(-it.stat().st_size // 1024) for it in files(root))
    fields = "".join(f"{name}: {words}\n" for name, words in {**control, "Installed-Size": str(size)}.items())
    put(root, "DEBIAN/control", fields.encode())
    put(root, "DEBIAN/md5sums", sums.encode())
    put(root, "DEBIAN/conffiles", "".join(f"/{it}\n" for it in kept).encode())
    for name, script in scripts.items():
        put(root, f"DEBIAN/{name}", script, PROGRAM)
    at_one_time(root, time)
    words = ["dpkg-deb", "--root-owner-group", "-Zxz", "--threads-max=1", "--build", str(root), str(file)]
    subprocess.run(words, check=True, stdout=subprocess.DEVNULL, env=os.environ | {"SOURCE_DATE_EPOCH": str(time)})
