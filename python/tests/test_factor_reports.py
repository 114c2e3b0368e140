"""Lines of reports about factors, worked out by hand, as lines of yes and no."""

import json
import unittest

from itip.modes import of_report

SUM = "vars X, Y\nprove H(X) + H(Y) >= H(X,Y)\n"


class FactorReports(unittest.TestCase):
    def test_least(self):
        line = {"answer": "best", "factor": ["1", "1"], "point": ["1", "0", "1"], "proofs": [{"scale": "1", "weights": [[2, "1"]]}], "question": SUM}
        said, parts = of_report(json.dumps(line))
        holds, smaller = map(json.loads, parts)
        self.assertEqual(said, "best 1/1")
        self.assertEqual((holds["answer"], holds["proofs"]), ("yes", line["proofs"]))
        self.assertEqual((smaller["answer"], smaller["point"], smaller["side"]), ("no", line["point"], "forward"))

    def test_with_copies(self):
        """R is independent of X: at the point both have the entropy 1."""
        line = {"answer": "best", "copies": "copy R of X over 0\n", "factor": ["1", "1"], "point": ["1", "1", "2"], "proofs": [{"scale": "1", "weights": []}], "question": "vars X\nprove H(X) >= H(X)\n"}
        said, parts = of_report(json.dumps(line))
        self.assertEqual((said, [json.loads(part)["question"].split("\n")[0] for part in parts]), ("best 1/1", ["vars X, R"] * 2))

    def test_none(self):
        said, parts = of_report(json.dumps({"answer": "none", "point": ["0", "1", "1"], "question": "vars X, Y\nprove H(X) >= H(Y)\n"}))
        self.assertEqual((said, [json.loads(part)["point"] for part in parts]), ("none", [["0", "1", "1"]]))

    def test_unbounded(self):
        proofs = [{"scale": "1", "weights": []}, {"scale": "1", "weights": [[0, "1"]]}]
        line = {"answer": "unbounded", "factor": ["0", "1"], "proofs": proofs, "question": "vars X\nprove - H(X) >= 0\n"}
        said, parts = of_report(json.dumps(line))
        self.assertEqual((said, [json.loads(part)["proofs"] for part in parts]), ("unbounded 0/1", [[proof] for proof in proofs]))

    def test_nothing_shown(self):
        undecided = {"answer": "undecided", "at": "0", "cause": "size", "phase": 0, "question": SUM}
        self.assertEqual(of_report(json.dumps(undecided)), ("undecided size", []))
        self.assertEqual(of_report(json.dumps({"answer": "misfit", "cause": "other", "question": SUM})), ("other", []))


if __name__ == "__main__":
    unittest.main()
