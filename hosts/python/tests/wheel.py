"""Says whether a wheel has what it must: python3 hosts/python/tests/wheel.py WHEEL"""

import pathlib
import sys
import zipfile

ROOT = pathlib.Path(__file__).resolve().parents[3]
VERSION = (ROOT / "VERSION").read_text().strip()
OBJECT = f"libstackfilter.so.{VERSION.rpartition('.')[0]}"


def faults(wheel):
    if wheel.name != f"stackfilter-{VERSION}-py3-none-linux_x86_64.whl":
        yield f"its name is {wheel.name}"
    with zipfile.ZipFile(wheel) as files:
        package = {name.split("/")[1]: files.read(name) for name in files.namelist() if name.startswith("stackfilter/")}
        about = files.read(f"stackfilter-{VERSION}.dist-info/WHEEL").decode()
        others = {name.split("/")[0] for name in files.namelist()} - {"stackfilter", f"stackfilter-{VERSION}.dist-info"}
    source = {path.name for path in (ROOT / "hosts/python/stackfilter").iterdir() if path.is_file()}
    if set(package) != source | {"VERSION", OBJECT}:
        yield f"the package has {sorted(package)}"
    elif package[OBJECT] != (ROOT / "build" / OBJECT).read_bytes():
        yield "its shared object is not that of hosts/build"
    if others:
        yield f"beside the package it has {sorted(others)}"
    if "Root-Is-Purelib: false" not in about or "Tag: py3-none-linux_x86_64" not in about:
        yield f"it says of itself: {about}"


def main(wheel):
    found = list(faults(wheel))
    if found:
        sys.exit("\n".join(f"{wheel.name}: {fault}" for fault in found))
    print(f"{wheel.name} carries the package, its version and {OBJECT}")


main(pathlib.Path(sys.argv[1]))
