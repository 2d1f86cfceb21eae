"""A wheel carries the shared library if it is built: clients/c/build/libraftlog.so.0, or that of the path RAFTLOG_SO. Else the
package finds an installed one when it is imported."""
import os
import shutil

from setuptools import Distribution, setup
from setuptools.command.build_py import build_py

try:
    from setuptools.command.bdist_wheel import bdist_wheel
except ImportError:
    from wheel.bdist_wheel import bdist_wheel

NAME = "libraftlog.so.0"
HERE = os.path.dirname(os.path.abspath(__file__))
LIBRARY = os.environ.get("RAFTLOG_SO", os.path.join(HERE, "../c/build", NAME))


class BuildWithLibrary(build_py):
    def run(self):
        super().run()
        if os.path.exists(LIBRARY):
            shutil.copyfile(LIBRARY, os.path.join(self.build_lib, "raftlog", NAME))


class WheelOfPlatform(bdist_wheel):
    """Any Python 3 may use it, with the library on machines of this kind alone."""

    def get_tag(self):
        return ("py3", "none", super().get_tag()[2])


class DistributionWithLibrary(Distribution):
    def has_ext_modules(self):
        return os.path.exists(LIBRARY)


setup(cmdclass={"build_py": BuildWithLibrary, "bdist_wheel": WheelOfPlatform}, distclass=DistributionWithLibrary)
