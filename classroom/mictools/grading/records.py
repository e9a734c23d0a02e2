"""What is said of a submission: rows of the tables, and records of JSON."""
import decimal
import json

from .texts import json_number, plain, shown

SUMMARY = ["submission", "passed", "cases", "cycles", "instructions", "first difference", "points", "of"]
PROOF = "proof"  # the last column of the summary, where mic-check is asked
DETAIL = ["submission", "case", "result", "cycles", "instructions", "difference", "points", "of"]


def summary_of(submission, fault, outcomes, proof):
    failed = next((o for o in outcomes if o.reason), None)
    record = {
        "submission": shown(submission.label),
        "passed": sum(not o.reason for o in outcomes),
        "cases": len(outcomes),
        "cycles": sum(o.cycles for o in outcomes),
        "instructions": sum(o.instructions for o in outcomes),
        "first difference": fault or (f"{failed.case.name}: {failed.reason}" if failed else ""),
        "points": plain(sum(o.points for o in outcomes)),
        "of": plain(sum(o.case.points for o in outcomes)),
    }
    return record if proof is None else {**record, PROOF: str(proof)}


def proof_detail_of(submission, proof):
    """What mic-check says as a row among those of the cases."""
    values = [shown(submission.label), PROOF, proof.verdict, 0, 0, proof.text, 0, 0]
    return dict(zip(DETAIL, values))


def detail_of(submission, outcome):
    return {
        "submission": shown(submission.label),
        "case": outcome.case.name,
        "result": "failed" if outcome.reason else "passed",
        "cycles": outcome.cycles,
        "instructions": outcome.instructions,
        "difference": outcome.reason,
        "points": plain(outcome.points),
        "of": plain(outcome.case.points),
    }


def as_json(record):
    return {key: json_number(value) if isinstance(value, decimal.Decimal) else value for key, value in record.items()}


def json_line(exercise, submission, fault, outcomes, proof):
    record = as_json(summary_of(submission, fault, outcomes, proof))
    record["exercise"] = exercise.name
    record["file"] = shown(submission.path) if not submission.fault else None
    record["results"] = []
    for outcome in outcomes:
        detail = as_json(detail_of(submission, outcome))
        del detail["submission"]
        if not fault:
            detail["status"] = outcome.status
            detail["wanted"] = shown(outcome.case.wanted[:4096], "\n\t")
            detail["given"] = shown(outcome.given[:4096], "\n\t")
        record["results"].append(detail)
    return json.dumps(record, ensure_ascii=False) + "\n"
