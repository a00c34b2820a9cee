"""What pyproject.toml cannot say of the wheel: it carries the product's VERSION and the shared object that hosts/build
wrote, so it is made in a checkout, for x86-64 Linux and for any Python 3. Nothing is left behind in the checkout.
"""

import pathlib
import shutil
import sys
import tempfile

from setuptools import Distribution, setup
from setuptools.command.build_py import build_py

try:
    from setuptools.command.bdist_wheel import bdist_wheel
except ImportError:
    from wheel.bdist_wheel import bdist_wheel

ROOT = pathlib.Path(__file__).resolve().parents[2]
VERSION = ROOT / "VERSION"
version = VERSION.read_text(encoding="ascii").strip()
OBJECT = ROOT / "build" / f"libstackfilter.so.{version.rpartition('.')[0]}"


class WithObject(Distribution):
    """A distribution that is not of Python files alone."""

    def has_ext_modules(self):
        return True


class CarryFiles(build_py):
    """Puts the version and the shared object into the package."""

    def run(self):
        super().run()
        if not OBJECT.is_file():
            sys.exit(f"the shared object is not there, at {OBJECT}: run hosts/build first, which makes it")
        for file in (VERSION, OBJECT):
            shutil.copyfile(file, pathlib.Path(self.build_lib) / "stackfilter" / file.name)


class TagWheel(bdist_wheel):
    """Names what the wheel is for: the shared object's machine, and no one Python, since it is loaded by ctypes."""

    def get_tag(self):
        return "py3", "none", "linux_x86_64"


with tempfile.TemporaryDirectory() as scratch:
    setup(
        version=version,
        distclass=WithObject,
        cmdclass={"build_py": CarryFiles, "bdist_wheel": TagWheel},
        options={"build": {"build_base": scratch}, "egg_info": {"egg_base": scratch}},
    )
