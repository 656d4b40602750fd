#!/usr/bin/env python3
"""Tries what tools/costs says of one more case, on a type with four and on files that name some of them."""
import tempfile
import unittest
from importlib.machinery import SourceFileLoader
from importlib.util import module_from_spec, spec_from_loader
from pathlib import Path

loader = SourceFileLoader("costs", str(Path(__file__).with_name("costs")))
costs = module_from_spec(spec_from_loader("costs", loader))
loader.exec_module(costs)

VARIANTS = "use Rattle.low.specs.declared.shape.Shape.TheVariants"
IMPORTS = VARIANTS + ".{Dot, Line, Ring, Box}\n"
# a line for each case, of a definition with something before and behind the case
EACH = "".join(f"f {{0}}{case}{{1}} = 1\n" for case in ("Dot", "(Line l)", "(Ring r)", "Box"))
NEEDS = {
    "proofs/Listed.antt": VARIANTS + " as shape\nall = shape.Dot ∷ shape.Line 1 ∷ shape.Ring 2 ∷ shape.Box ∷ []\n",
    "proofs/shape/of/Answers.antt": "returns-in-Dot c = c.in-Dot.is\nreturns-in-Box c = c.in-Box.is\n",
    "specs/Beside.antt": IMPORTS + EACH.format("", " true") + "f other false = 2\n",
    "specs/Inside.antt": IMPORTS + "f None = 0\n" + EACH.format("(Some ", ")"),
    "specs/Plain.antt": IMPORTS + "f : Shape → ℕ\n" + EACH.format("", ""),
    "src/shape.rt": """/// A shape.
pub enum Shape {
    /// A dot.
    Dot,
    Line { long: u8 },
    Ring(u8),
    Box,
}
fn of(s: Shape) -> u8 {
    match s {
        Shape::Dot | Shape::Line { .. } => 0,
        Shape::Ring(r) if r > 0 => { r }
        Shape::Ring(_) => 1,
        Shape::Box => 2,
    }
}
""",
}
HIDES = {
    "specs/First.antt": IMPORTS + "f : Shape → ℕ\nf Dot = 0\nf other = 1\n",
    "specs/Second.antt": IMPORTS + "f None x = 0\nf (Some Dot) x = 1\nf (Some other) x = 2\n",
    "src/first.rt": "fn f(s: Shape) -> u8 {\n    match s {\n        Shape::Dot => 0,\n        _ => 1,\n    }\n}\n",
    "src/second.rt": "fn f(s: Shape) {\n    if let Shape::Box = s {}\n}\n",
    "src/third.rt": "fn f(s: Shape) -> bool {\n    matches!(s, Shape::Dot | Shape::Box)\n}\n",
}
OTHERS = {
    "proofs/Taken.antt": IMPORTS + "f Dot = refl\nf other = refl\n",
    "specs/Imports.antt": IMPORTS + "-- Dot, Line, Ring, Box\nf : ℕ\nf = 1\n",
    "specs/Others.antt": EACH.format("", ""),
    "src/equal.rt": "fn f(s: Shape) -> bool {\n    s == Shape::Dot\n}\n",
    "src/tests.rt": "const ALL: [Shape; 4] = [Shape::Dot, Shape::Line { long: 1 }, Shape::Ring(1), Shape::Box];\n",
}


class OneMoreCase(unittest.TestCase):
    def test_files(self):
        with tempfile.TemporaryDirectory() as top:
            for file, text in {**NEEDS, **HIDES, **OTHERS}.items():
                path = Path(top, "crates/low", file)
                path.parent.mkdir(parents=True, exist_ok=True)
                path.write_text(text, encoding="utf-8")
            costs.TOP, costs.KINDS = Path(top), {"shape": ("shape", "enum", "Shape")}
            row, *told = costs.case_costs("shape")
        files = [(line[0], line.split(": ")[1][len("crates/low/"):]) for line in told]
        self.assertEqual([file for word, file in files if word == "m"], sorted(NEEDS))
        self.assertEqual(sorted(file for word, file in files if word == "a"), sorted(HIDES))
        # Line is named by tests alone, and Dot by two files more and all that hide a case but one
        self.assertEqual(row, f"| shape | {len(NEEDS)} | 1 to 7 | {len(HIDES)} |")


if __name__ == "__main__":
    unittest.main()
