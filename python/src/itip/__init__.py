"""Questions about information inequalities as objects, answered by the proved programs (docs/guide/python.md).

>>> from itip import *
>>> X, Y, Z = rv("X Y Z")
>>> print(prove(I(X & Z) <= I(X & Y), given=markov(X, Y, Z)))
yes
  I(X;Y) - I(X;Z) = I(X;Y|Z) - I(X;Z|Y)
"""

from __future__ import annotations

import sys
from types import ModuleType

TYPE_CHECKING = False
if TYPE_CHECKING:
    from typing import Any

    from .everything import *

__version__ = "0.1"


class _Package(ModuleType):
    """The package, which loads what it hands out when a name of it is first used: ./ask needs little of it.

    Two names are also those of modules, and stay what `everything` says where such a module is loaded.
    """

    def __getattr__(self, name: str) -> Any:
        if name == "__all__" or not name.startswith("__"):
            from importlib import import_module

            everything = import_module(".everything", __name__)
            self.__dict__.update({known: getattr(everything, known) for known in ("__all__", *everything.__all__)})
            if name in self.__dict__:
                return self.__dict__[name]
        raise AttributeError(f"module {__name__!r} has no attribute {name!r}")

    def __setattr__(self, name: str, value: object) -> None:
        if name not in ("ask", "sharing") or not isinstance(value, ModuleType):
            super().__setattr__(name, value)

    def __dir__(self) -> list[str]:
        return sorted({*super().__dir__(), *self.__all__})


sys.modules[__name__].__class__ = _Package
