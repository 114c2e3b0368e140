"""Runs the notebook's cells from top to bottom, and has the last expression of each show itself as a notebook would."""

import ast
import contextlib
import io
import json
import unittest
from pathlib import Path

FORMS = ("_repr_html_", "_repr_svg_", "_repr_latex_", "__repr__")


class Tour(unittest.TestCase):
    def test_tour(self):
        notebook = json.loads((Path(__file__).parents[1] / "tour.ipynb").read_text())
        room, shown = {}, []
        with contextlib.redirect_stderr(io.StringIO()) as progress:
            for cell in notebook["cells"]:
                if cell["cell_type"] == "code":
                    shown.append(self.shown("".join(cell["source"]), room))
        text = "\n".join(shown)
        for wanted in ("$I(X;Z) \\le I(X;Y)$", "<b>yes</b>", "$R \\ge H(X\\mid Y)$", "<polygon", "<polyline", "b1 + b4", "copy R of A over C, D"):
            self.assertIn(wanted, text)
        self.assertIn("found copy R", progress.getvalue())

    def shown(self, source, room):
        *body, last = ast.parse(source).body
        self.assertIsInstance(last, ast.Expr)
        exec(compile(ast.Module(body, []), "tour", "exec"), room)
        value = eval(compile(ast.Expression(last.value), "tour", "eval"), room)
        form = next(form for form in FORMS if hasattr(value, form))
        return getattr(value, form)()
