"""What `pyproject.toml` cannot say of a wheel: it is of one platform where it has the library, and has nothing of an older build."""

import shutil
from pathlib import Path

from setuptools import Distribution, setup
from setuptools.command.build_py import build_py

try:
    from setuptools.command.bdist_wheel import bdist_wheel
except ImportError:
    from wheel.bdist_wheel import bdist_wheel

LIBRARY = Path(__file__).resolve().parent / "tfpg" / "libtfpg.so"


class FreshBuild(build_py):
    """Copies the package into a folder in which nothing of an older build stands."""

    def run(self):
        if not getattr(self, "editable_mode", False):
            shutil.rmtree(self.build_lib, ignore_errors=True)
        super().run()


class PackageWithLibrary(Distribution):
    """The package is of this platform alone if it has the library."""

    def has_ext_modules(self):
        return LIBRARY.is_file()


class PlatformWheel(bdist_wheel):
    """A wheel for any Python 3."""

    def get_tag(self):
        return "py3", "none", super().get_tag()[2]


setup(distclass=PackageWithLibrary, cmdclass={"build_py": FreshBuild, "bdist_wheel": PlatformWheel})
