# SPDX-License-Identifier: Apache-2.0
"""What pyproject.toml cannot say: the version, and the platform of a wheel that contains the library."""
from pathlib import Path
from typing import Tuple

from setuptools import Distribution, setup

try:
    from setuptools.command.bdist_wheel import bdist_wheel
except ImportError:
    from wheel.bdist_wheel import bdist_wheel

HERE = Path(__file__).resolve().parent
HAS_LIBRARY = (HERE / "trapping" / "libtrap.so.1").is_file()


def version() -> str:
    """The text of VERSION: beside this file in a source archive, else at the top of the repository."""
    place = next(path for path in (HERE / "VERSION", HERE.parent / "VERSION") if path.is_file())
    return place.read_text(encoding="ascii").strip()


class Wheel(bdist_wheel):  # type: ignore[misc]
    """A wheel for x86-64 Linux if the library is in the package; else for any machine whose system has the library."""

    def finalize_options(self) -> None:
        super().finalize_options()
        self.root_is_pure = not HAS_LIBRARY

    def get_tag(self) -> Tuple[str, str, str]:
        """Python, ABI and platform. tools/packages checks that the library needs no symbol that the platform lacks."""
        return ("py3", "none", "manylinux2014_x86_64") if HAS_LIBRARY else ("py3", "none", "any")


class Linked(Distribution):  # type: ignore[misc]
    """With the library the package belongs among those for one platform."""

    def has_ext_modules(self) -> bool:
        return HAS_LIBRARY


if __name__ == "__main__":
    setup(version=version(), distclass=Linked, cmdclass={"bdist_wheel": Wheel})
