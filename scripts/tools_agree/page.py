"""The workbench's page says of a refusal and of a difference what `where` and `difference` say: both take their words from one text."""
import json
import os
import re
import shutil
import subprocess

from .running import EXERCISES, programs
from .where import shortened

WORKBENCH = "workbench"
ODD = {
    "line.jas": ".main\n IMUL\n HALT\n.end-main\n", "label.jas": ".main\nloop\n GOTO loop\n.end-main\n", "section.jas": ".Main\n HALT\n",
    "name.jas": ".main\n ILOAD n\n HALT\n.end-main\n", "range.jas": ".main\n BIPUSH 256\n HALT\n.end-main\n", "none.jas": "",
    "mark.jas": "\ufeff.main\n HALT\n.end-main\n", "unreached.jas": ".main\n HALT\n.end-main\n.method f()\n", "plus.tiny": "fn main() {\n  var n = 1;\n  n += 1;\n}\n",
    "greater.tiny": "fn main() {\n  if 2 > 1 { put 1; }\n}\n", "call.tiny": "fn f(a) { }\nfn main() { f(); }\n", "number.tiny": "fn main() { put '\\n'; }\n",
    "sum.mal": "Main1 TOS=MDR+TOS\n goto Main1\n", "part.mal": "Main1 PC=PC+1 fetch\n goto Main1\n", "small.mal": "main1 goto main1\n", "other.mal": "Main1 TOS=MBR1\n goto Main1\n",
}


def said_by_page(check, tasks):
    words = ["node", "scripts/tools_agree/page.mjs", WORKBENCH, check.mic.command]
    ran = subprocess.run(words, input=json.dumps(tasks).encode(), stdout=subprocess.PIPE, stderr=subprocess.PIPE)
    if ran.returncode:
        check.agree("the page's modules", ran.stderr.decode()[-400:], "")
    return [json.loads(line) for line in ran.stdout.decode().splitlines()]


def check_page(check):
    if not os.path.isdir(WORKBENCH) or shutil.which("node") is None:
        print("page: skipped: there is no " + ("node" if os.path.isdir(WORKBENCH) else "workbench"))
        return
    check_refusals(check)
    check_differences(check)


def check_refusals(check):
    texts = dict(ODD)
    for source in ("add", "gcd", "multiply", "factorial"):
        texts.update({f"{source}{number}.jas": text for number, text in enumerate(check.some(shortened(f"examples/{source}.jas"), 8))})
    pages = said_by_page(check, [{"file": {"name": name, "text": text}} for name, text in texts.items()])
    for (name, text), page in zip(texts.items(), pages):
        printed, status = check.tool("where", "--json", check.file(name, text))
        found = json.loads(printed)
        if page is None or not status:
            check.agree(f"the page and where of {name}: refused", page is not None, bool(status))
            continue
        given = (found["line"] or 0, found["words"], "; ".join(found["notes"]), found["advice"])
        check.agree(f"the page and where of {name}", (page["line"], page["text"], page["notes"], page["advice"]), given)


def check_differences(check):
    shipped = check.mic.says("print-micro").out
    damages = [("bipush3 TOS=MDR=MBR; wr;", "bipush3 TOS=MDR=MBR;"), ("iadd3 TOS=MDR=H+MDR", "iadd3 TOS=MDR=H OR MDR"), ("out4 MDR=TOS", "out4 MDR=TOS+1"),
               ("iinc6 MDR=H+MBR", "iinc6 MDR=MBR"), ("goto6 goto Main1", "goto6 goto Main1")]
    tasks, words = [], []
    for path, given in check.some([(path, given) for path, given in programs() if path.startswith("examples/") and path.endswith(".jas")], 6):
        with open(path, encoding="utf-8") as file:
            program = {"name": os.path.basename(path), "text": file.read()}
        old, new = check.random.choice(damages)
        mine = shipped.replace(old, new)
        tasks.append({"program": program, "micro": None, "other": {"name": "mine.mal", "text": mine}, "machine": "mic1", "bound": 4000, "input": given})
        words.append((path, mine, given))
    for (path, mine, given), page in zip(words, said_by_page(check, tasks)):
        micro, source = check.file("mine.mal", mine), check.file("input", given)
        found = json.loads(check.tool("difference", "--json", path, "--micro", micro, "--bound", 4000, "--input", source)[0])
        after = re.sub(r"  \[.*", "", found["instruction"])
        what = [(re.sub(r" \(.*\)$", "", row["what"]), [re.sub(r"  \[.*", "", value) for value in row["values"]]) for row in found["what"]]
        wanted = (found["same"], found["boundaries"], after.replace("boot", "the boot"), [what for what, _ in what])
        check.agree(f"the page and difference of {path}", (page["same"], page["boundaries"], page["after"], [row["what"] for row in page["what"]]), wanted)
