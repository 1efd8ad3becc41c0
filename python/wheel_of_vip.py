"""Build the wheel of `vip`, with the library in it, by the standard library alone (PEP 517).

So `pip install ./python` needs no network, no other package and no compiler. The library is the one that
`vip._engine` finds for this folder, and the version is the one that the library gives.
"""
import base64
import hashlib
import importlib
import pathlib
import re
import sys
import zipfile

HERE = pathlib.Path(__file__).resolve().parent
# The policies of PEP 600 for x86-64 with the aliases of older ones, by the C library that each takes.
ALIASES = {(2, 5): ".manylinux1_x86_64", (2, 12): ".manylinux2010_x86_64", (2, 17): ".manylinux2014_x86_64"}
POLICIES = sorted([*ALIASES, *((2, minor) for minor in (24, 26, 27, 28, 31, 34, 35, 36, 37, 38, 39, 40, 41))])


def library_and_version() -> tuple[bytes, str]:
    """Return the bytes of the library, and the version that it gives."""
    sys.path.insert(0, str(HERE))
    import vip

    # (the package has a function of the same name as this module)
    _engine = importlib.import_module("vip._engine")

    return pathlib.Path(_engine.library_path()).read_bytes(), vip.version()


def tag(library: bytes) -> str:
    """Return the wheel's tag, as auditwheel chooses it: the oldest policy whose C library has each symbol."""
    versions = {(int(major), int(minor)) for major, minor in re.findall(rb"GLIBC_(\d+)\.(\d+)", library)}
    needed = max(versions, default=POLICIES[0])
    major, minor = next((policy for policy in POLICIES if policy >= needed), needed)
    return f"py3-none-manylinux_{major}_{minor}_x86_64{ALIASES.get((major, minor), '')}"


def section(project: str, name: str) -> str:
    """Return the lines of a table of pyproject.toml."""
    return re.search(rf"(?ms)^\[{re.escape(name)}\]\n(.*?)(?=^\[|\Z)", project)[1].rstrip("\n") + "\n"


def extras(project: str) -> list[str]:
    """Return the lines of METADATA that name the optional dependencies."""
    lines = []
    for extra, names in re.findall(r"(?m)^(\w+) = \[(.*)\]$", section(project, "project.optional-dependencies")):
        lines.append(f"Provides-Extra: {extra}\n")
        lines += [f'Requires-Dist: {name} ; extra == "{extra}"\n' for name in re.findall(r'"(.*?)"', names)]
    return lines


def files_of_wheel() -> tuple[str, str, dict[str, bytes]]:
    """Return the wheel's name and version, its tag, and the content of each file in it."""
    project = (HERE / "pyproject.toml").read_text(encoding="utf-8")
    said = dict(re.findall(r'(?m)^([\w-]+) = "(.*)"$', project))
    library, version = library_and_version()
    stem = f"vip-{version}"
    files = {f"vip/{path.name}": path.read_bytes() for path in sorted((HERE / "vip").iterdir()) if path.suffix in (".py", ".typed")}
    files["vip/libvip.so"] = library
    metadata = {
        "Metadata-Version": "2.1",
        "Name": "vip",
        "Version": version,
        "Summary": said["description"],
        "Requires-Python": said["requires-python"],
    }
    lines = [f"{name}: {value}\n" for name, value in metadata.items()]
    files[f"{stem}.dist-info/METADATA"] = "".join([*lines, *extras(project)]).encode()
    points = section(project, "project.entry-points.pytest11").replace('"', "")
    files[f"{stem}.dist-info/entry_points.txt"] = f"[pytest11]\n{points}".encode()
    interpreter, abi, platforms = tag(library).split("-")
    tags = "".join(f"Tag: {interpreter}-{abi}-{platform}\n" for platform in platforms.split("."))
    files[f"{stem}.dist-info/WHEEL"] = f"Wheel-Version: 1.0\nGenerator: vip\nRoot-Is-Purelib: false\n{tags}".encode()
    return stem, tag(library), files


def build_wheel(wheel_directory, config_settings=None, metadata_directory=None):  # pylint: disable=unused-argument
    """Write the wheel into a folder, and return its name."""
    stem, its_tag, files = files_of_wheel()
    record = f"{stem}.dist-info/RECORD"
    rows = []
    for name, content in files.items():
        digest = base64.urlsafe_b64encode(hashlib.sha256(content).digest()).rstrip(b"=").decode()
        rows.append(f"{name},sha256={digest},{len(content)}")
    files[record] = "\n".join([*rows, f"{record},,", ""]).encode()
    wheel_name = f"{stem}-{its_tag}.whl"
    with zipfile.ZipFile(pathlib.Path(wheel_directory) / wheel_name, "w", zipfile.ZIP_DEFLATED) as wheel:
        for name, content in files.items():
            entry = zipfile.ZipInfo(name)  # (of a fixed time, so that the same files give the same wheel)
            entry.external_attr = 0o644 << 16
            entry.compress_type = zipfile.ZIP_DEFLATED
            wheel.writestr(entry, content)
    return wheel_name
