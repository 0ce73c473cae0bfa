"""Statements about matrices and linear operators: written, proved or refuted by opprove, checked again, and shown.

    from opprove import Statement

    s = Statement()
    U, V = s.objects("U V")
    a = s.map("a", U, V)
    x, y = s.maps("x y", V, U)
    s.pinv(a, x)
    s.pinv(a, y)
    s.claim(x == y)
    verdict, = s.prove(pairs=10000)
    print(verdict, verdict.recheck(), verdict.chain())

a * x is a after x, a.H the adjoint of a, 2 * e and e ** 3 are as usual, and an integer beside an endomorphism is so many
identities: (1 - a * x) * a == 0. What doesn't fit together is refused at once, by NotTyped; == makes an equation, which is
assumed or claimed and has no truth value. Statement.read(path) reads statements of both languages, and files of the notation (.opn)
as what they expand to; Statement.read_all(path) reads those with several statements, by their names. str(statement) writes them:
powers are written out, and s.eliminate(..) makes a statement one of language 2. from_sympy makes expressions of noncommutative
symbols. In a notebook a statement shows its picture, a proof its chain, and a refutation its matrices.

The program is that of program=, of the variable OPPROVE, of this checkout, or in PATH. Evidence is checked again by the second
checkers, and read and drawn by the tools `chain` and `picture`.
"""
from importlib import import_module
from typing import TYPE_CHECKING, Any, List

if TYPE_CHECKING:
    from opprove.expressions import Equation, Expression, NotTyped, Object
    from opprove.program import Refused
    from opprove.statements import Statement
    from opprove.sympy_expressions import from_sympy
    from opprove.verdicts import Proof, Report, Verdict

    __version__: str

__all__ = ["Equation", "Expression", "NotTyped", "Object", "Proof", "Refused", "Report", "Statement", "Verdict", "from_sympy"]

# The modules that the names are read from when they are asked for, so that a tool loads what it needs alone.
_MODULES = {
    "Equation": "expressions", "Expression": "expressions", "NotTyped": "expressions", "Object": "expressions", "Refused": "program",
    "Statement": "statements", "Proof": "verdicts", "Report": "verdicts", "Verdict": "verdicts", "from_sympy": "sympy_expressions",
}  # fmt: skip


def __getattr__(name: str) -> Any:
    if name == "__version__":
        return import_module(f"{__name__}.version").VERSION
    if name not in _MODULES:
        raise AttributeError(f"module {__name__!r} has no attribute {name!r}")
    return getattr(import_module(f"{__name__}.{_MODULES[name]}"), name)


def __dir__() -> List[str]:
    return sorted({*globals(), *__all__})
