"""Records: named tuples that equal those of their own kind alone, as `Take(1)` doesn't
equal `Lost(1)`."""

import sys
from collections import namedtuple


def record(name, fields="", defaults=()):
    """A kind of records, by its name and its fields."""

    def equals(self, other):
        return type(self) is type(other) and tuple.__eq__(self, other)

    def differs(self, other):
        return not equals(self, other)

    # (where the class stands, so that a value can be handed to another process)
    module = sys._getframe(1).f_globals["__name__"]
    words = {
        "__slots__": (),
        "__module__": module,
        "__eq__": equals,
        "__ne__": differs,
        "__hash__": tuple.__hash__,
    }
    return type(name, (namedtuple(name, fields, defaults=defaults),), words)
