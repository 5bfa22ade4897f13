"""The package with its compiled steps where there is a C compiler, and with the library where `make -C bindings` built it. pyproject.toml says the rest."""

import shutil
from pathlib import Path

from setuptools import Extension, setup
from setuptools.command.build_py import build_py

HERE = Path(__file__).resolve().parent
LIBRARY = HERE.parent / "out" / "libmdb.so"
OLDEST = "0x03090000"  # the Python of `requires-python`, whose stable ABI all later ones have


class BuildWithLibrary(build_py):
    """Takes the library along, so that what is installed needs no checkout."""

    def run(self):
        super().run()
        if LIBRARY.exists() and not getattr(self, "editable_mode", False):
            shutil.copy2(LIBRARY, Path(self.build_lib) / "mdb" / "libmdb.so")


setup(
    cmdclass={"build_py": BuildWithLibrary},
    ext_modules=[
        Extension(
            "mdb._compiled",
            ["src/steps.c", "src/told.c"],
            include_dirs=["../../include"],
            define_macros=[("Py_LIMITED_API", OLDEST)],
            extra_compile_args=["-std=gnu11"],
            py_limited_api=True,
            optional=True,
        )
    ],
    options={"bdist_wheel": {"py_limited_api": "cp39"}},
)
