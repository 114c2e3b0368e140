"""All that the package hands out, from the modules that have it."""

from .answers import Answer, Contained, No, Open, Projected, Undecided, Yes
from .asking import ask, prove, prove_all
from .bounds import OuterBound, Ray, outer_bound
from .codes import Code, code_at, code_for
from .copies import Copy, copy
from .curves import Corner, Curve, Face, tradeoff
from .errors import (
    Forged,
    ItipError,
    MissingProgram,
    NotationError,
    ProgramFailed,
    Refused,
    TimedOut,
    UndecidedError,
    WorkerLost,
)
from .evidence import Certificate, Generator, Point
from .factors import Factor, best
from .latex import aligned
from .notation import Constraint, H, I, Relation, Sum, Variable, func, indep, markov, rates, rv
from .pictures import Picture, curve_picture
from .polygons import Polygon, entropies, gaussian
from .problems import Edge, Problem, caching, index_coding, network, regenerating
from .program import Itip, Notice, configure
from .reading import assumption, relation
from .regions import Region, contained, region
from .search import Search, find_copies
from .sharing import Sharing, sharing

__all__ = [
    "Answer", "Certificate", "Code", "Constraint", "Contained", "Copy", "Corner", "Curve", "Edge", "Face", "Factor", "Forged",
    "Generator", "H", "I", "Itip", "ItipError", "MissingProgram", "No", "NotationError", "Notice", "Open", "OuterBound", "Picture",
    "Point", "Polygon", "Problem", "ProgramFailed", "Projected", "Ray", "Refused", "Region", "Relation", "Search", "Sharing", "Sum",
    "TimedOut", "Undecided", "UndecidedError", "Variable", "WorkerLost", "Yes", "aligned", "ask", "assumption", "best", "caching",
    "code_at", "code_for", "configure", "contained", "copy", "curve_picture", "entropies", "find_copies", "func", "gaussian",
    "indep", "index_coding", "markov", "network", "outer_bound", "prove", "prove_all", "rates", "regenerating", "region",
    "relation", "rv", "sharing", "tradeoff",
]
