"""A class on one page: who passes which case, where most fail and with what difference, and the cycles as a plot. The page needs no network."""
import collections
import html

from .records import PROOF
from .texts import plain

STYLE = """
:root { color-scheme: light dark; --good: #0d7a4f; --bad: #b3261e; --line: #8888; }
body { font: 15px/1.45 system-ui, sans-serif; margin: 1.5rem auto; max-width: 72rem; padding: 0 1rem; }
table { border-collapse: collapse; margin: .5rem 0 1.5rem; }
th, td { border: 1px solid var(--line); padding: .2rem .5rem; text-align: left; vertical-align: top; }
th { font-weight: 600; }
td.number { text-align: right; font-variant-numeric: tabular-nums; }
.good { color: var(--good); } .bad { color: var(--bad); font-weight: 600; }
code { font: 13px ui-monospace, monospace; overflow-wrap: anywhere; }
.wide { overflow-x: auto; }
svg { max-width: 100%; height: auto; } svg text { font: 12px system-ui, sans-serif; fill: currentColor; }
@media print { body { margin: 0; max-width: none; } }
"""
WIDTH, HEIGHT, LEFT = 640, 26, 150  # of a row of the plot, in pixels
COLUMNS = 40  # of the plot
MANY = 5  # differences that are shown of a case


def text(value):
    return html.escape(str(value), quote=True)


def table(head, rows):
    """A table; a cell is text, or (class, text)."""
    out = ["<div class=wide><table><thead><tr>" + "".join(f"<th scope=col>{text(cell)}</th>" for cell in head) + "</tr></thead><tbody>"]
    for row in rows:
        cells = [cell if isinstance(cell, tuple) else ("", cell) for cell in row]
        out.append("<tr>" + "".join(f'<td class="{kind}">{content}</td>' for kind, content in cells) + "</tr>")
    return "".join(out) + "</tbody></table></div>"


def mark(reason):
    """Whether a case passed, not by colour alone."""
    return ("bad", f'<span title="{text(reason)}">✗</span>') if reason else ("good", "✓")


def students(all_said, cases, has_proofs):
    rows = []
    for said in all_said:
        summary = said.summary
        rows.append([f"<code>{text(said.label)}</code>", ("number", f"{summary['points']} of {summary['of']}"),
                     *(mark(reason) for _, reason, _ in said.results), ("number", f"{summary['cycles']:,}"), f"<code>{text(summary['first difference'])}</code>",
                     *([text(summary[PROOF])] if has_proofs else [])])
    return table(["submission", "points", *cases, "cycles", "first difference", *(["mic-check"] if has_proofs else [])], rows)


def failures(all_said, cases):
    """Each case with how many pass it, and its most frequent differences."""
    rows = []
    for place, case in enumerate(cases):
        reasons = collections.Counter(said.results[place][1] for said in all_said)
        passed = reasons.pop("", 0)
        most = reasons.most_common(MANY)
        lines = [f"{count}: <code>{text(reason)}</code>" for reason, count in most]
        if len(reasons) > len(most):
            lines.append(f"and {len(reasons) - len(most)} other differences")
        rows.append([f"<code>{text(case)}</code>", ("number", f"{passed} of {len(all_said)}"), bar(passed, len(all_said)), "<br>".join(lines)])
    return table(["case", "passed by", "", "first differences"], rows)


def bar(passed, of):
    filled = 160 * passed // max(of, 1)
    return (f'<svg viewBox="0 0 160 12" width="160" height="12" aria-hidden="true"><rect width="160" height="12" fill="#b3261e" fill-opacity=".25"/>'
            f'<rect width="{filled}" height="12" fill="#0d7a4f"/></svg>')


def plot(all_said, cases):
    """For each case the cycles of the submissions that pass it, from the fewest to the most, as a row of columns."""
    rows = []
    for place, case in enumerate(cases):
        cycles = sorted(said.results[place][2] for said in all_said if not said.results[place][1])
        if cycles:
            rows.append((case, cycles))
    if not rows:
        return "<p>No case is passed.</p>"
    parts = [f'<svg viewBox="0 0 {LEFT + WIDTH + 190} {HEIGHT * len(rows) + 8}" width="{LEFT + WIDTH + 190}" role="img" aria-label="cycles of each case">']
    for number, (case, cycles) in enumerate(rows):
        parts += plot_row(case, cycles, HEIGHT * number + HEIGHT)
    return "".join(parts) + "</svg>"


def plot_row(case, cycles, base):
    least, most = cycles[0], cycles[-1]
    step = max((most - least + 1) / COLUMNS, 1)
    width = min(WIDTH * step / (most - least + 1), WIDTH / 10)
    columns = collections.Counter(int((count - least) / step) for count in cycles)
    highest = max(columns.values())
    yield f'<text x="{LEFT - 8}" y="{base - 3}" text-anchor="end">{text(case)}</text>'
    yield f'<line x1="{LEFT}" x2="{LEFT + WIDTH}" y1="{base}" y2="{base}" stroke="currentColor" stroke-opacity=".4"/>'
    for column, count in sorted(columns.items()):
        height = max(2, round((HEIGHT - 8) * count / highest))
        low = least + column * step
        yield (f'<rect x="{LEFT + column * width:.0f}" y="{base - height}" width="{width - 2:.0f}" height="{height}" fill="#0d7a4f">'
               f"<title>{count} with {low:,.0f} cycles{' or more' if step > 1 else ''}</title></rect>")
    yield f'<text x="{LEFT + WIDTH + 8}" y="{base - 3}">{least:,} to {most:,}</text>'


def copied(groups):
    if not groups:
        return "<p>No two submissions become the same program.</p>"
    rows = [[("number", len(labels)), "<br>".join(f"<code>{text(label)}</code>" for label in labels), text(what)] for labels, what in groups]
    return table(["how many", "submissions", "the same as"], rows)


def page(exercise, all_said, groups):
    cases = [case.name for case in exercise.cases]
    whole = sum(said.summary["passed"] == said.summary["cases"] for said in all_said)
    points = sum(said.summary["points"] for said in all_said)
    mean = f"{float(points) / len(all_said):.2f}" if all_said else "0"
    of = plain(sum(case.points for case in exercise.cases))
    has_proofs = exercise.proved is not None
    proved = sum(said.summary.get(PROOF) == "proved" for said in all_said)
    proofs = f" {proved} are proved by mic-check." if has_proofs else ""
    return "\n".join([
        "<!doctype html>", '<html lang="en">', "<head>", '<meta charset="utf-8">', '<meta name="viewport" content="width=device-width">',
        '<meta http-equiv="Content-Security-Policy" content="default-src \'none\'; style-src \'unsafe-inline\'">',
        f"<title>{text(exercise.name)}</title>", f"<style>{STYLE}</style>", "</head>", "<body>", f"<h1>{text(exercise.name)}</h1>",
        f"<p>{len(all_said)} submissions, {whole} with all points; {mean} of {of} points in the mean.{proofs}</p>",
        "<h2>Cases</h2>", failures(all_said, cases),
        "<h2>Cycles</h2>", "<p>Of the submissions that pass a case; a column is higher where more have about as many cycles.</p>", plot(all_said, cases),
        "<h2>The same program</h2>", copied(groups),
        "<h2>Submissions</h2>", students(all_said, cases, has_proofs), "</body>", "</html>", ""])
