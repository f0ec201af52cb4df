"""Where the program stands that came with this package."""
import os
import sysconfig
from importlib import metadata
from typing import Iterator


def _places() -> Iterator[str]:
    """Where an installer may have put it: as its record says, beside the package (`pip --target`), or in a folder for programs."""
    try:
        for file in metadata.distribution('arwen').files or []:
            if file.name == 'arwen' and file.parent.name == 'bin':
                yield str(file.locate())
    except metadata.PackageNotFoundError:
        pass
    yield os.path.join(os.path.dirname(os.path.dirname(os.path.abspath(__file__))), 'bin', 'arwen')
    yield os.path.join(sysconfig.get_path('scripts'), 'arwen')
    yield os.path.join(sysconfig.get_path('scripts', os.name + '_user'), 'arwen')


def program() -> str:
    """The path of the program. Error: FileNotFoundError."""
    for place in _places():
        if os.access(place, os.X_OK) and os.path.isfile(place):
            return os.path.abspath(place)
    raise FileNotFoundError('the program arwen is not installed with this package')
