"""Results as learning platforms take them: Moodle's worksheet, and the JSON of Gradescope and of GitHub Classroom."""
import csv
import io
import json
import re

from ..command_line import Fault
from .records import PROOF

MOODLE = re.compile(r"_(\d+)_assignsubmission_")  # in the name of a folder or file of Moodle's export


def comments_on(record):
    """The first difference, and what mic-check says."""
    proof = record.get(PROOF)
    return "\n".join(text for text in (record["first difference"], proof and f"mic-check: {proof}") if text)


def gradescope(record, exercise):
    """results.json of Gradescope's autograder, for one submission."""
    tests = []
    for result in record["results"]:
        output = result["difference"]
        if result["result"] == "failed" and result.get("status") == 0:
            output += f"\nwanted:\n{result['wanted']}\ngiven:\n{result['given']}"
        tests.append({"name": result["case"], "score": result["points"], "max_score": result["of"], "status": result["result"], "output": output})
    return {"score": record["points"], "output": comments_on(record), "output_format": "text", "tests": tests}


def github(record, exercise):
    """The result of a test runner of GitHub Classroom, for one submission."""
    passed = record["passed"] == record["cases"]
    tests = [{"name": result["case"], "status": "pass" if result["result"] == "passed" else "fail", "score": result["points"],
              "message": result["difference"] or None, "test_code": f"grade {exercise.name}, case {result['case']}", "filename": "", "line_no": 0}
             for result in record["results"]]
    return {"version": 1, "status": "pass" if passed else "fail", "max_score": record["of"], "tests": tests}


def as_text(record):
    return json.dumps(record, ensure_ascii=False, indent=1) + "\n"


class Worksheet:
    """Moodle's worksheet for grading offline. A row is a participant's; grades are a part of the maximum grade of the row."""

    def __init__(self, path):
        with open(path, encoding="utf-8", newline="") as file:
            text = file.read()
        self.start = "\ufeff" if text.startswith("\ufeff") else ""
        rows = csv.DictReader(io.StringIO(text[len(self.start) :]))
        self.names, self.rows = rows.fieldnames or [], list(rows)
        for name in ("Identifier", "Grade", "Maximum Grade"):
            if name not in self.names:
                raise Fault(65, f"{path}: no column {name}")
        self.of = {number[0]: row for row in self.rows if (number := re.search(r"\d+", row["Identifier"]))}
        self.best = {}

    def put(self, summary):
        """Puts in the grade of a submission, if its name has a participant's number and it is the best one of that participant."""
        found = MOODLE.search(summary["submission"])
        row = self.of.get(found[1]) if found else None
        if row is None:
            return False
        if found[1] not in self.best or summary["points"] > self.best[found[1]]:
            self.best[found[1]] = summary["points"]
            row["Grade"] = f"{float(summary['points']) / float(summary['of'] or 1) * float(row['Maximum Grade'].replace(',', '.')):.2f}"
            if "Feedback comments" in self.names:
                row["Feedback comments"] = comments_on(summary)
        return True

    def text(self):
        out = io.StringIO(newline="")
        writer = csv.DictWriter(out, self.names)
        writer.writeheader()
        writer.writerows(self.rows)
        return self.start + out.getvalue()
