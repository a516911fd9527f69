"""For the checks: a command whose reader is gone."""
import os
import subprocess

from fiorrudda.places import ROOT


def without_reader(command: str, *words: str) -> bytes:
    """What a command of bin/ says on standard error where nobody reads its output. It keeps its output in a buffer, as
    it does without PYTHONUNBUFFERED: what is left there is written at its end, when it is too late to catch an
    error."""
    own = {name: value for name, value in os.environ.items() if name != "PYTHONUNBUFFERED"}
    ran = subprocess.Popen([os.path.join(ROOT, "bin", command), *words], env=own, stdout=subprocess.PIPE,
                           stderr=subprocess.PIPE)
    assert ran.stdout and ran.stderr
    ran.stdout.close()
    with ran.stderr:
        said = ran.stderr.read()
    ran.wait()
    return said
