"""A wheel is for each Python 3. It is for one machine where the shared object lies beside the module, and else for
all."""
import pathlib

from setuptools import Distribution, setup

try:
    from setuptools.command.bdist_wheel import bdist_wheel
except ImportError:  # (before setuptools 70)
    try:
        from wheel.bdist_wheel import bdist_wheel
    except ImportError:
        bdist_wheel = None

COMMANDS = {}


class OfOneMachine(Distribution):
    def has_ext_modules(self):
        return (pathlib.Path(__file__).resolve().parent / "fiorrudda/libfiorrudda.so").exists()


if bdist_wheel:
    class Wheel(bdist_wheel):
        def get_tag(self):
            return "py3", "none", super().get_tag()[2]

    COMMANDS["bdist_wheel"] = Wheel

setup(cmdclass=COMMANDS, distclass=OfOneMachine)
