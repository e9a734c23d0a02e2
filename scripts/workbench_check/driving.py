"""The page, driven in headless Chromium by keys and clicks as a person would, and compared with calls of mic"""
from __future__ import annotations

import json
import os
import random
import re
import subprocess
import tempfile

from devtools import ALT, CONTROL, SHIFT, Browser

from .runs import LONG, SHORT, TOP, example
from .trace import Program, read_cycles

# In the drawing: texts that overlap, that leave the picture, or that cross a box; and sentences that do not fit their place
FAULTS = """(() => {
  const svg = document.querySelector('#picture-box svg'), view = svg.viewBox.baseVal, faults = [];
  const texts = [...svg.querySelectorAll('text')].filter(t => t.textContent.trim()).map(t => [t.getBBox(), t.textContent]);
  const over = (a, b) => [Math.min(a.x + a.width, b.x + b.width) - Math.max(a.x, b.x), Math.min(a.y + a.height, b.y + b.height) - Math.max(a.y, b.y)];
  texts.forEach(([a, text], i) => {
    if (a.x < 0 || a.y < 0 || a.x + a.width > view.width || a.y + a.height > view.height) faults.push('outside: ' + text);
    for (const [b, other] of texts.slice(i + 1)) { const [w, h] = over(a, b); if (w > 0.5 && h > 5) faults.push(text + ' over ' + other); }
  });
  const boxes = [...svg.querySelectorAll('rect')].filter(r => getComputedStyle(r).stroke !== 'none').map(r => r.getBBox());
  for (const [t, text] of texts) for (const r of boxes) {
    const inner = {x: t.x, width: t.width, y: t.y + 0.25 * t.height, height: 0.55 * t.height}, [w, h] = over(inner, r);
    if (w > 1 && h > 1 && (t.x < r.x - .5 || t.x + t.width > r.x + r.width + .5)) faults.push('crosses a box: ' + text);
  }
  const words = svg.querySelector('foreignObject'), list = words.firstElementChild;
  if (list.scrollHeight > words.height.baseVal.value + 1) faults.push('the sentences do not fit: ' + list.textContent);
  return faults;
})()"""


class Page:
    """The workbench in a browser"""

    def __init__(self, browser, address):
        self.browser, self.address = browser, address

    def start(self, fragment=""):
        self.browser.open(self.address + fragment)
        return self.browser.wait("window.workbench && !document.body.classList.contains('loading')")

    def text(self, selector):
        return self.browser.value("(document.querySelector(%s) || {}).innerText" % json.dumps(selector)) or ""

    def open_file(self, name):
        self.browser.value("[...document.querySelectorAll('#files-panel li button')].find(b => b.title === %s).click()" % json.dumps(name))
        self.browser.wait("document.querySelector('#tabs .tab.on button').textContent === %s" % json.dumps(name))

    def choose(self, name, value):
        self.browser.value("(() => { const s = document.getElementById(%s); s.value = %s; s.dispatchEvent(new Event('change')); })()"
                           % (json.dumps(name), json.dumps(value)))

    def replace(self, line, old, new):
        """Types in place of a part of a line"""
        self.browser.value("(() => { const a = document.querySelector('#editor textarea'), rows = a.value.split('\\n'); a.focus(); "
                           "const at = rows.slice(0, %d).join('\\n').length + 1 + rows[%d].indexOf(%s); a.setSelectionRange(at, at + %d); })()"
                           % (line - 1, line - 1, json.dumps(old), len(old)))
        self.browser.type(new)

    def idle(self):
        return self.browser.wait("!workbench.busy")

    def run(self, steps=False):
        self.browser.key("Enter", CONTROL | (SHIFT if steps else 0))
        return self.browser.wait("!workbench.busy && (workbench.result.ran || workbench.result.refusal)")

    def cycle(self):
        found = re.search(r"cycle ([\d,]+)", self.text("#where"))
        return int(found[1].replace(",", "")) if found else 0

    def go_to(self, cycle):
        self.browser.value("(() => { const f = document.getElementById('cycle'); f.value = %d; f.dispatchEvent(new Event('change')); })()" % cycle)

    def field(self, name):
        return self.browser.value("document.querySelector('#picture-box [data-field=\"%s\"]').textContent" % name)

    def leave_field(self):
        self.browser.value("document.activeElement.blur()")


def check_page(results, mic, chromium, path, is_long):
    program = Program(mic)
    with Browser(chromium, 1440, 900) as browser:
        page = Page(browser, "file://" + path)
        results.check("the page opens from a file", page.start())
        for check in (refusals, runs, steps, pipeline_and_cache, other_views, proofs, waiting, files, links):
            check(results, page, program, is_long)
        exercises(results, page, is_long)
        results.note("no message in the browser's console", browser.problems())
        recorded(results, page, mic, path)
        safety(results, page)


def refusals(results, page, program, is_long):
    browser = page.browser
    page.open_file("hanoi.jas")
    page.replace(46, "POP", "NOP")
    browser.wait("document.getElementById('said').className === 'bad'")
    said = page.text("#said")
    results.check("a refusal of the verifier at its line", browser.value("document.querySelector('#editor .row.refused').dataset.line") == "47"
                  and "depth 0 and 1" in said and "from line 22" in said, said)
    page.replace(46, "NOP", "POPP")
    browser.wait("/Line 46: bad line/.test(document.getElementById('said').innerText)")
    results.check("a line that is no instruction", "Line 46: bad line" in page.text("#said") and "mnemonic" in page.text("#said"), page.text("#said"))
    page.run()
    results.check("a refused program does not run", "line 46" in page.text("#happened") and not browser.value("!!workbench.result.ran"), page.text("#happened"))
    page.replace(46, "POPP", "POP")
    results.check("accepted again", browser.wait("document.getElementById('said').className === ''"), page.text("#said"))


def mic_run(program, name, *words, given=b""):
    with tempfile.TemporaryDirectory() as folder:
        with open(os.path.join(folder, name), "wb") as file:
            file.write(example(name)["text"].encode("utf-8", "surrogateescape"))
        return program.call(folder, words[0], name, *words[1:], given=given)


def runs(results, page, program, is_long):
    browser = page.browser
    for name, given in (("hello.jas", ""), ("line_reading.jas", "one\ntwo"), ("sum.tiny", "17 20 5"), ("stack_limit.jas", "")):
        page.open_file(name)
        browser.value("workbench.input = %s; workbench.inputEnds = true; workbench.choose('console')" % json.dumps(given))
        page.run()
        output, report, _ = mic_run(program, name, "tiny" if name.endswith("tiny") else "run", given=given.encode())
        shown = page.text("#output").replace("↵", "").strip()
        results.check("a run of " + name, page.text("#report") == report.strip() and shown == (output.decode().strip() or "nothing"), page.text("#happened"))
    browser.value("workbench.input = ''; workbench.inputEnds = false; workbench.changed('all')")


def steps(results, page, program, is_long):
    browser = page.browser
    page.open_file("hanoi.jas")
    for machine in ("mic2", "mic1"):
        page.choose("machine", machine)
        results.check(machine + ": a change of the machine empties what is older", not browser.value("!!workbench.stepping || !!workbench.result.ran"))
        page.run(steps=True)
        page.leave_field()
        browser.wait("workbench.view === 'datapath' && document.querySelector('#picture-box svg')")
        cycles, _ = read_cycles(mic_run(program, "hanoi.jas", "trace", "--machine", machine)[1])
        differences, faults = [], []
        for cycle in random.Random(2).sample(cycles, len(cycles) if is_long else 25):
            page.go_to(cycle.number)
            shown = {name: page.field("next-" + name) or page.field("now-" + name) for name in ("MAR", "MDR", "PC", "SP", "LV", "TOS", "OPC", "H", "MPC")}
            if page.cycle() != cycle.number or page.field("label").split()[0] != cycle.mpc or any(cycle.after[name] != value for name, value in shown.items()):
                differences.append("cycle %d: %s" % (cycle.number, shown))
            faults += ["cycle %d: %s" % (cycle.number, fault) for fault in browser.value(FAULTS)]
        results.note(machine + ": registers after the edge", differences)
        results.note(machine + ": no text over another", faults)
        stops(results, page, program, machine)
    long_labels(results, page)
    page.open_file("hanoi.jas")


# Lines of hanoi.jas with the addresses of their instructions
BREAKS = {36: 0x34, 47: 0x49}


def long_labels(results, page):
    """A microprogram of one's own, with the longest label, all nine destinations and a word that no statement has"""
    browser = page.browser
    browser.value("workbench.newFile('long.mal', %s); workbench.newFile('short.jas', %s)" % (json.dumps(LONG), json.dumps(SHORT)))
    page.choose("micro", "long.mal")
    page.run(steps=True)
    page.leave_field()
    faults, count = [], browser.value("workbench.stepping.trace.count")
    for cycle in range(1, count + 1):
        page.go_to(cycle)
        faults += ["cycle %d: %s" % (cycle, fault) for fault in browser.value(FAULTS)]
    results.note("long labels: no text over another in %d cycles" % count, faults if count > 5 else ["too few cycles"])
    browser.value("['long.mal', 'short.jas'].forEach(name => workbench.removeFile(name)); workbench.set('micro', '')")


def stops(results, page, program, machine):
    """Breakpoints, forward and back by F8, beside `mic debug`; and steps of one cycle and one instruction"""
    browser = page.browser
    browser.value("workbench.current.breaks = new Set(%s); workbench.changed('marks')" % json.dumps(list(BREAKS)))
    asked = "".join("break 0x%x\n" % address for address in BREAKS.values()) + "go\n" * 80
    said = mic_run(program, "hanoi.jas", "debug", "--machine", machine, given=asked.encode())[1]
    wanted = [int(number) + 1 for number in re.findall(r"^break\ncycle (\d+) at", said, re.M)]
    page.leave_field()
    for key, modifiers, right in (("F8", 0, wanted), ("F8", SHIFT, wanted[::-1])):
        browser.key("Home" if right is wanted else "End")
        stopped = []
        while len(stopped) <= len(wanted):
            browser.key(key, modifiers)
            if "breakpoint" not in page.text("#where"):
                break
            stopped.append(page.cycle())
        results.check("%s: %d stops at breakpoints, as `mic debug`" % (machine, len(right)), stopped == right, (stopped[:4], right[:4]))
    page.go_to(100)
    browser.key("ArrowRight")
    browser.key("ArrowDown")
    here = page.cycle()
    browser.key("ArrowUp")
    browser.key("ArrowLeft")
    results.check(machine + ": keys of the steps", here > 101 and page.cycle() < here, here)
    browser.value("workbench.current.breaks = new Set(); workbench.changed('marks')")


def pipeline_and_cache(results, page, program, is_long):
    browser = page.browser
    page.choose("machine", "mic3")
    page.run(steps=True)
    total = mic_run(program, "hanoi.jas", "run", "--machine", "mic3")[1]
    page.leave_field()
    browser.key("End")
    results.check("Mic-3: the pipeline", "cycles %d " % page.cycle() in total and "retires" in page.text("#pipeline"), page.text("#where"))
    page.choose("machine", "mic1")
    browser.value("workbench.choose('cache')")
    browser.click("#go-cache")
    browser.wait("workbench.result.cache && !workbench.busy")
    right = re.search(r"hits (\d+) misses (\d+)", mic_run(program, "hanoi.jas", "cache", "4")[1])
    results.check("the cache", "%s misses, %s hits" % (right[2], right[1]) in page.text("#cached"), page.text("#cached")[:80])


def other_views(results, page, program, is_long):
    browser = page.browser
    page.run(steps=True)
    page.go_to(905)
    browser.value("workbench.choose('state')")
    results.check("frames with names", "discs" in page.text("#frames") and "main" in page.text("#frames"), page.text("#frames")[:200])
    browser.value("workbench.choose('memory')")
    results.check("memory with who wrote each word", "cycle " in page.text("#words"), page.text("#words")[:200])
    browser.value("workbench.choose('profile')")
    browser.click("#go-profile")
    browser.wait("workbench.result.profile && !workbench.busy")
    said, shown = mic_run(program, "hanoi.jas", "profile")[1], page.text("#profiled")
    rows = [line.split() for line in said.split("\n") if re.match(r"[A-Z_]+ \d+ \d+$", line) and not line.startswith("MAR")]
    results.note("the profile", ["%s %s %s" % tuple(row) for row in rows if not re.search(r"%s\s+%s\s+%s\s" % tuple(row), shown)])
    browser.value("workbench.choose('compare'); document.getElementById('micro-other').value = 'quick_jumps.mal'")
    browser.click("#go-compare")
    browser.wait("workbench.result.difference && !workbench.busy")
    results.check("two microprograms without a difference", "No difference" in page.text("#compared") and "15 fewer" in page.text("#compared"), page.text("#compared")[:200])
    page.open_file("quick_jumps.mal")
    line = 1 + browser.value("workbench.current.text.split('\\n').findIndex(row => row.startsWith('isub3'))")
    page.replace(line, "wr; ", "")
    page.choose("program", "hanoi.jas")
    browser.value("workbench.choose('compare')")
    browser.click("#go-compare")
    browser.wait("workbench.result.difference && !workbench.busy")
    results.check("a forgotten wr is the first difference", "ISUB" in page.text("#compared") and "word 0000800" in page.text("#compared"), page.text("#compared")[:300])
    browser.click("#compared button")
    browser.wait("workbench.stepping && !workbench.busy")
    results.check("a step to that difference", "isub3" in page.text("#cycles"), page.text("#where"))
    browser.value("workbench.removeFile('quick_jumps.mal')")


def prove(page):
    """Has the microprogram in the editor proved, by the key, and returns what is shown"""
    page.browser.value("workbench.say('')")
    page.browser.key("Enter", ALT)
    page.browser.wait("!workbench.busy && (workbench.result.proof || workbench.notice)")
    return page.text("#proved")


def proofs(results, page, program, is_long):
    """A microprogram is proved; of one that is not shown a statement is gone to by keys alone"""
    browser = page.browser
    page.open_file("quick_jumps.mal")
    shown = prove(page)
    results.check("a microprogram is proved, with fewer cycles", shown.startswith("Proved") and re.search(r"GOTO\s+6\s+7\s+1 fewer", shown)
                  and re.search(r"IADD\s+4\s+4\s*\n", shown), shown)
    rows = "[...document.querySelectorAll('table.costs tr.other td:first-child')].map(cell => cell.textContent)"
    results.check("the rows with fewer cycles stand out", browser.value(rows) == ["IFEQ", "IFLT", "IF_ICMPEQ", "GOTO"], browser.value(rows))
    line = 1 + browser.value("workbench.current.text.split('\\n').findIndex(row => row.startsWith('isub3'))")
    page.replace(line, "wr; ", "")
    results.check("an answer is of the text before", "before your last change" in page.text("#proved"), page.text("#proved"))
    browser.value("document.activeElement.blur()")
    shown = prove(page)
    results.check("a forgotten wr is not shown", shown.startswith("Not shown") and "ISUB" in shown and "wrong" not in shown, shown)
    browser.value("[...document.querySelectorAll('.way button')].find(link => link.textContent === 'isub3').focus()")
    browser.key("Enter")
    caret = "(() => { const a = document.activeElement; return a.tagName === 'TEXTAREA' ? a.value.slice(0, a.selectionStart).split('\\n').length : 0; })()"
    results.check("Enter on a statement goes to its line", browser.value(caret) == line, browser.value(caret))
    page.choose("machine", "mic2")
    browser.click("#prove")
    said, is_off = page.text("#proof-of"), browser.value("document.getElementById('prove').getAttribute('aria-disabled') === 'true'")
    results.check("on Mic-2 the button says why nothing is proved", "Mic-1" in said and is_off and not browser.value("!!workbench.result.proof"), said)
    page.choose("machine", "mic1")
    browser.value("workbench.removeFile('quick_jumps.mal')")


def waiting(results, page, program, is_long):
    """A program that asks for more input than there is"""
    browser = page.browser
    page.open_file("line_reading.jas")
    browser.value("workbench.input = ''; workbench.inputEnds = false; workbench.choose('console')")
    page.run()
    if not browser.value("workbench.result.ran.waits"):
        results.skip("input while a program runs: the module of this page cannot stop at a read")
        return
    results.check("the program waits for input", browser.value("!document.getElementById('asked').hidden"), page.text("#happened"))
    browser.value("document.getElementById('line').focus()")
    browser.type("abc")
    browser.key("Enter")
    browser.wait("!workbench.busy && workbench.result.ran && !workbench.result.ran.waits")
    results.check("it goes on with the line", page.text("#output").startswith("ABC"), page.text("#output"))
    browser.value("workbench.input = ''")


def files(results, page, program, is_long):
    browser = page.browser
    page.open_file("hello.jas")
    page.replace(3, "'H'", "'h'")
    browser.wait("workbench.store.isOwn('hello.jas')")
    page.start()
    results.check("a file is kept over a reload", browser.value("workbench.store.read('hello.jas').text.includes(\"'h'\")"))
    page.open_file("hello.jas")
    browser.value("(() => { const key = 'mic-workbench/file/hello.jas'; localStorage.setItem(key, JSON.stringify({text: '// theirs', version: 'other'})); })()")
    page.replace(3, "'h'", "'x'")
    browser.wait("workbench.current.conflict")
    results.check("what another tab wrote is not written over", browser.value("workbench.store.read('hello.jas').text") == "// theirs"
                  and "another tab" in page.text("#said"), page.text("#said"))
    browser.value("workbench.takeKept(workbench.current)")
    results.check("the other text is taken", browser.wait("workbench.current.text === '// theirs'"), page.text("#said"))
    browser.value("workbench.removeFile('hello.jas')")
    results.check("the example comes back", browser.wait("workbench.store.read('hello.jas').text.includes(\"'H'\")"))


def links(results, page, program, is_long):
    browser = page.browser
    page.open_file("countdown.jas")
    page.choose("machine", "mic2")
    page.run(steps=True)
    page.go_to(100)
    browser.click("#hand-out")
    browser.wait("document.getElementById('dialog').open")
    fragment = browser.value("document.querySelector('#dialog input').value").split("#", 1)[1]
    page.browser.open("about:blank")
    page.start("#" + fragment)
    browser.wait("document.getElementById('dialog').open")
    results.check("a link opens the program, and runs nothing", browser.value("workbench.current.name") == "countdown.jas" and not browser.value("!!workbench.result.ran"))
    browser.click("#dialog .go")
    browser.wait("workbench.stepping && !workbench.busy")
    results.check("and steps to its cycle when one says so", page.cycle() == 100 and browser.value("workbench.settings.machine") == "mic2", page.text("#where"))
    page.browser.open("about:blank")
    page.start()
    page.choose("machine", "mic1")


SOLVED = ("01-letters", "03-stars", "11-branches", "16-cache")


def exercises(results, page, is_long):
    """Each exercise is solved by its solution, and not by its start"""
    browser, folder = page.browser, os.path.join(TOP, "classroom", "exercises")
    inside = browser.value("document.getElementById('lessons').textContent")
    for name in sorted(os.listdir(folder)):
        solutions = [file for file in os.listdir(os.path.join(folder, name)) if file.startswith("solution.")]
        if not solutions or not is_long and name not in SOLVED:
            continue
        with open(os.path.join(folder, name, solutions[0]), encoding="utf-8", errors="surrogateescape") as file:
            solution = file.read()
        results.check("the solution of %s is not in the page" % name, json.dumps(solution)[1:-1] not in inside)
        browser.value("[...document.querySelectorAll('#exercises button')].find(b => b.title === %s).click()" % json.dumps(name))
        browser.wait("document.getElementById('begin-exercise')")
        browser.click("#begin-exercise")
        browser.wait("!document.getElementById('check-exercise').disabled")
        for what, text in (("start", None), ("solution", solution)):
            if text is not None:
                browser.value("workbench.edit(%s); workbench.saveAll()" % json.dumps(text))
            browser.click("#check-exercise")
            browser.wait("workbench.busy || workbench.graded")
            browser.wait("!workbench.busy && workbench.graded", 120)
            points = re.search(r"([\d.]+) of ([\d.]+) points", page.text("#exercise"))
            right = points and (points[1] == points[2]) == (what == "solution")
            results.check("%s: the %s" % (name, what), right, page.text("#exercise")[-300:])
            if browser.value("typeof workbench.exercise.proved === 'string'"):
                results.check("%s: the %s is proved" % (name, what), page.text("#exercise-proof").startswith("Proved"), page.text("#exercise-proof"))
        browser.value("workbench.removeFile(workbench.current.name)")
    small_window(results, page)


def small_window(results, page):
    """On a small window a task is shown when its exercise is chosen, and the editor when it is begun"""
    browser, part = page.browser, "document.body.dataset.part"
    browser.size(390, 844)
    browser.value("document.querySelector('#exercises button').click()")
    results.check("on a small window the task is shown", browser.value(part) == "run", browser.value(part))
    in_view = "(tab => tab.left >= 0 && tab.right <= innerWidth)(document.getElementById('tab-exercise').getBoundingClientRect())"
    results.check("and the tab of its view", browser.value(in_view))
    browser.click("#begin-exercise")
    results.check("and the editor for its file", browser.wait("%s === 'editor'" % part, 10), browser.value(part))
    page.run(steps=True)
    results.check("and the steps of a run by a key", browser.value("document.activeElement.id") == "step-on", page.text("#where"))
    browser.value("workbench.removeFile(workbench.current.name)")
    browser.size(1440, 900)


def recorded(results, page, mic, path):
    """A page of one run, as classroom/datapath writes it, opened where WebAssembly is not to be had"""
    browser = page.browser
    with tempfile.TemporaryDirectory() as folder:
        made, source = os.path.join(folder, "add.html"), os.path.join(TOP, "examples", "add.jas")
        environment = {**os.environ, "MIC": mic, "MIC_WORKBENCH": path}
        done = subprocess.run([os.path.join(TOP, "classroom", "datapath"), source, made, "--machine", "mic2"], env=environment, stdin=subprocess.DEVNULL,
                              stdout=subprocess.PIPE, stderr=subprocess.PIPE)
        results.check("classroom/datapath writes a page", done.returncode == 0 and done.stdout == b"*" and os.path.getsize(made) < 400_000, done.stderr)
        without = browser.call("Page.addScriptToEvaluateOnNewDocument", source="delete window.WebAssembly")
        browser.open("file://%s#cycle=14" % made)
        browser.wait("window.workbench && workbench.stepping")
        results.check("the page of a run shows its cycle", page.cycle() == 14 and page.field("label").startswith("030"), page.text("#where"))
        page.browser.key("ArrowRight")
        results.check("and goes on by keys", page.cycle() == 15, page.text("#where"))
        browser.call("Page.removeScriptToEvaluateOnNewDocument", **without)


def safety(results, page):
    """What the page's policy forbids"""
    browser = page.browser
    page.start()
    for what, tried in (("markup", "document.body.innerHTML = '<b>x</b>'"), ("a script", "new Function('return 1')()")):
        expression = "(() => { try { %s; return false; } catch { return true; } })()" % tried
        answer = browser.call("Runtime.evaluate", expression=expression, returnByValue=True, allowUnsafeEvalBlockedByCSP=False)
        results.check("a string does not become " + what, answer["result"].get("value") is True, answer)
    results.check("nothing is fetched", browser.value("fetch('data:text/plain,x').then(() => false, () => true)"))
