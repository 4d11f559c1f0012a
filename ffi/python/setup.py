"""The wheel is for machines like this one where the library is inside, as `build` makes it; and for any Python 3, as the
library is loaded by ctypes."""

import os
from typing import Tuple

from setuptools import Distribution, setup

try:
    from setuptools.command.bdist_wheel import bdist_wheel
except ImportError:
    from wheel.bdist_wheel import bdist_wheel

HERE = os.path.dirname(os.path.abspath(__file__))


class Package(Distribution):
    def has_ext_modules(self) -> bool:
        return os.path.exists(os.path.join(HERE, "wakotehu", "libwakotehu.so.0"))


class Wheel(bdist_wheel):
    def get_tag(self) -> Tuple[str, str, str]:
        return ("py3", "none", super().get_tag()[2])


setup(distclass=Package, cmdclass={"bdist_wheel": Wheel})
