"""The page of pictures in docs/ is what python/gallery makes."""

import unittest
from importlib.machinery import SourceFileLoader
from importlib.util import module_from_spec, spec_from_loader
from pathlib import Path

PYTHON = Path(__file__).resolve().parents[1]


def gallery():
    loader = SourceFileLoader("gallery", str(PYTHON / "gallery"))
    module = module_from_spec(spec_from_loader(loader.name, loader))
    loader.exec_module(module)
    return module


class Pages(unittest.TestCase):
    def test_pages(self):
        made = dict(gallery().pages())
        self.assertEqual(len(made), 5)
        for name, text in made.items():
            self.assertEqual(text, (PYTHON.parent / "docs" / "guide" / name).read_text(), name)


if __name__ == "__main__":
    unittest.main()
