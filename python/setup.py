"""The wheel: opgp.py as the package opgp, with what is in wheel/ beside it: its other modules, and py.typed (PEP 561). pyproject.toml has
the rest."""

import os

from setuptools import setup
from setuptools.command.build_py import build_py


class Package(build_py):
    """Puts opgp.py where the package's own code is wanted."""

    def run(self):
        super().run()
        self.copy_file("opgp.py", self.code())

    def code(self):
        return os.path.join(self.build_lib, "opgp", "__init__.py")

    def get_outputs(self, include_bytecode=1):
        return [*super().get_outputs(include_bytecode), self.code()]


setup(cmdclass={"build_py": Package})
