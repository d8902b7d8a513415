"""A model of one node, written from docs/POLICY.md, docs/RULES.md and docs/FORMATS.md: what each
event is answered, by looking back over the events before it. The program keeps a state instead, so
the two have nothing in common but the pages."""

from checks import Checks
from links import Links, Sides
from listed import Hearing, Listed, Monitors, Parts
from owed import Owed
from own import Admission, Own


class Model(Admission, Own, Sides, Links, Parts, Hearing, Listed, Monitors, Owed, Checks):
    """The definitions of the policy, each a method of the same name where it has one."""
