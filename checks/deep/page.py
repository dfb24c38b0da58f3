#!/usr/bin/env python3
"""Drives the page in a browser, and compares what it says with what the program writes.

usage: page.py PROGRAM [FOLDER]

Each example is solved, and has its circuit, its proof, its check, its script and a game up to its end; there are also a
malformed text, a search that is stopped and one that takes too long, a file that is opened and one that is dropped, and
a link. The page is used by keys alone, looked through for controls without a name and for faint text, and tried at 360
pixels. No request may go elsewhere than to the page's own server. FOLDER keeps pictures of it.

The page is served from web/, where qbf.wasm and the examples are to be there. Prints a line a case and ends with status
1 if one failed.
"""

import functools
import http.server
import json
import random
import re
import subprocess
import sys
import tempfile
import threading
from pathlib import Path

sys.dont_write_bytecode = True
import browser

ROOT = Path(__file__).resolve().parents[2]
WEB = ROOT / "web"
EXAMPLES = WEB / "examples"
# The page's jobs on a formula, with the words of the program that stand for each.
FORMULA_JOBS = {
    "solve": ["solve"],
    "circuit": ["cert", "--trim"],
    "proof": ["trace"],
    "check": ["check", "--decide"],
}
VERDICTS = {10: "SAT", 20: "UNSAT", 0: "UNKNOWN", 2: "REFUSED", 6: "LIMIT", 7: "USAGE"}
MALFORMED = "p cnf 2 1\na 1 0\ne 2 0\n1 2 3 0\n"
# How much of a long output the page shows.
SHOWN = 200_000
# How faint text may be against what it stands on.
CONTRAST = 4.5

# The ratio of contrast of the faintest text on the page, and that text. Colours are those that are drawn: each layer
# is laid over the one below it, and what is disabled or unseen doesn't count.
FAINTEST = """(() => {
  const canvas = document.createElement('canvas').getContext('2d', { willReadFrequently: true });
  const rgba = colour => {
    canvas.clearRect(0, 0, 1, 1);
    canvas.fillStyle = colour;
    canvas.fillRect(0, 0, 1, 1);
    const [r, g, b, a] = canvas.getImageData(0, 0, 1, 1).data;
    return [r, g, b, a / 255];
  };
  const over = ([r, g, b, a], [x, y, z]) => [r * a + x * (1 - a), g * a + y * (1 - a), b * a + z * (1 - a)];
  const own = it => rgba(getComputedStyle(it).backgroundColor);
  const behind = it => it ? over(own(it), behind(it.parentElement)) : [255, 255, 255];
  const light = colour => {
    const [r, g, b] = colour.map(c => (c /= 255) <= 0.04045 ? c / 12.92 : ((c + 0.055) / 1.055) ** 2.4);
    return 0.2126 * r + 0.7152 * g + 0.0722 * b;
  };
  const faded = it => !it ? 1 : getComputedStyle(it).opacity * faded(it.parentElement);
  const walker = document.createTreeWalker(document.body, NodeFilter.SHOW_TEXT);
  let worst = [21, ''];
  while (walker.nextNode()) {
    const it = walker.currentNode.parentElement;
    const text = walker.currentNode.textContent.trim();
    if (!text || !it.checkVisibility() || it.closest('.unseen, svg, option, :disabled, [aria-disabled=true]')) continue;
    const ground = behind(it);
    const [r, g, b, a] = rgba(getComputedStyle(it).color);
    const ink = over([r, g, b, a * faded(it)], ground);
    const [high, low] = [light(ink), light(ground)].sort((x, y) => y - x);
    const ratio = (high + 0.05) / (low + 0.05);
    if (ratio < worst[0]) worst = [ratio, text.slice(0, 40)];
  }
  return worst;
})()"""


# An answer is there.
ANSWERED = "document.getElementById('stop').hidden && document.getElementById('verdict').textContent !== ''"


class Failed(Exception):
    """A case that isn't as it should be."""


def require(is_so, what):
    if not is_so:
        raise Failed(what)


def same(got, wanted, what):
    require(got == wanted, f"{what}: {str(got)[:200]!r} and not {str(wanted)[:200]!r}")


class Quiet(http.server.SimpleHTTPRequestHandler):
    def log_message(self, *_):
        pass


class Page:
    """The page in a browser, and the program beside it."""

    def __init__(self, program, tab, address, shots):
        self.program, self.tab, self.address, self.shots = program, tab, address, shots

    def run(self, words, text):
        """Status, output and error output of the program."""
        ended = subprocess.run([self.program, *words], input=text, capture_output=True)
        return ended.returncode, ended.stdout.decode(), ended.stderr.decode()

    def open(self, **asked):
        """Opens the page, where a link may ask for an example."""
        link = "&".join(f"{key}={value}" for key, value in asked.items())
        self.tab.open(f"{self.address}#{link}")
        self.tab.until("document.getElementById('kind').textContent !== ''")
        self.tab.until("document.getElementById('text').value + document.getElementById('story').textContent !== ''")

    def enter(self, text):
        self.tab.value(f"""(() => {{ const it = document.getElementById('text'); it.value = {json.dumps(text)};
            it.dispatchEvent(new Event('input')); }})()""")

    def click(self, selector):
        require(self.tab.value(f"document.querySelector({json.dumps(selector)})?.checkVisibility()"),
                f"{selector} isn't there")
        self.tab.value(f"document.querySelector({json.dumps(selector)}).click()")

    def text(self, selector):
        return self.tab.value(f"document.querySelector({json.dumps(selector)}).textContent")

    def shown(self, selector):
        return self.tab.value(f"document.querySelector({json.dumps(selector)}).checkVisibility()")

    def do(self, job):
        """Does a job, and waits for its answer."""
        self.click(f"[data-job={job}]")
        self.tab.until("document.getElementById('stop').hidden")

    def shot(self, name):
        self.tab.shot(self.shots / f"{name}.png")


def formula_case(page, name):
    """A formula is answered as by the program, job by job, and its circuit wins a game."""
    text = (EXAMPLES / name).read_bytes()
    page.open(example=name)
    for job, words in FORMULA_JOBS.items():
        status, output, error = page.run(words, text)
        page.do(job)
        verdict = "WINS" if job == "check" else VERDICTS[status]
        same(page.text("#verdict"), verdict, f"the verdict of {job}")
        same(error, "", f"what the program says of {job}")
        if job in ("circuit", "proof"):
            same(page.text("#written")[:SHOWN], output[:SHOWN], f"the output of {job}")
    game(page)


def game(page):
    """A game with random moves, up to its end."""
    page.do("play")
    while not page.tab.value("document.getElementById('outcome').classList.contains('won')"):
        moves = page.tab.value("document.querySelectorAll('#scopes button.var').length")
        for i in range(moves):
            if random.random() < 0.5:
                page.tab.value(f"document.querySelectorAll('#scopes button.var')[{i}].click()")
        page.click("#scopes button.main")
    require(page.text("#outcome").startswith("The circuit wins"), page.text("#outcome"))


def circuit_case(page, name):
    """A quantified circuit is answered as by the program."""
    status, _, _ = page.run(["solve", "--qcir"], (EXAMPLES / name).read_bytes())
    page.open(example=name)
    same(page.text("#kind"), "QCIR-14", "the kind")
    page.do("solve")
    same(page.text("#verdict"), VERDICTS[status], "the verdict")


def script_case(page, name):
    """A script is replied to as by the program."""
    status, output, error = page.run(["script"], (EXAMPLES / name).read_bytes())
    page.open(example=name)
    same(page.text("#kind"), "script", "the kind")
    page.do("script")
    same(page.text("#verdict"), "DONE" if status == 0 else VERDICTS[status], "the verdict")
    same(page.text("#written"), output, "the replies")
    if error:
        same(page.text("#meaning"), error.strip(), "the error")


def proof_case(page):
    """A step of a proof opens to the steps that it rests on, and leads to them."""
    page.open(example="core.qdimacs", do="proof")
    page.tab.until("document.querySelectorAll('#rows > li').length > 0")
    wanted = {}
    for line in page.run(["trace"], (EXAMPLES / "core.qdimacs").read_bytes())[1].splitlines():
        if line[0].isdigit():
            numbers = [int(word) for word in line.split()]
            wanted[numbers[0]] = numbers[numbers.index(0, 1) + 1:-1]
    same(page.tab.value("document.querySelectorAll('#rows > li').length"), len(wanted), "the steps")
    for step, antecedents in wanted.items():
        if antecedents:
            page.click(f"#step-{step} > button")
        numbers = f"document.querySelectorAll('#step-{step} > ul > li .number')"
        got = page.tab.value(f"[...{numbers}].map(it => +it.textContent)")
        same(got, antecedents, f"what step {step} rests on")
    last = max(wanted)
    page.click(f"#step-{last} > ul button")
    same(page.tab.value("document.activeElement.parentElement.id"), f"step-{wanted[last][0]}", "the step gone to")
    page.shot("proof")


def graph_case(page):
    """A circuit is drawn with a node for each gate, input and output, and an output shows what it reads."""
    page.open(example="arbiter.qdimacs", do="circuit")
    page.tab.until("document.querySelectorAll('#graph .node').length > 0")
    header = page.text("#written").split("\n")[0].split()
    for kind, wanted in (("gate", int(header[5])), ("output", int(header[4]))):
        got = page.tab.value(f"document.querySelectorAll('#graph .node.{kind}').length")
        same(got, wanted, f"nodes of kind {kind}")
    same(page.tab.value("[...document.querySelectorAll('#outputs button')].map(it => it.textContent)"),
         ["g1 = r1", "g2 = r2 ∧ ¬r1", "g3 = r3 ∧ ¬r2 ∧ ¬r1"], "the outputs")
    page.click("#outputs li:last-child button")
    same(page.tab.value("document.querySelectorAll('#graph .node.on').length"), 6, "what the last output reads")


def malformed_case(page):
    """A malformed text is refused with the program's line."""
    status, _, error = page.run(["solve"], MALFORMED.encode())
    page.open(example="arbiter.qdimacs")
    page.enter(MALFORMED)
    page.do("solve")
    same((page.text("#verdict"), page.text("#meaning")), (VERDICTS[status], error.strip()), "the answer")


def endless():
    """A formula whose search takes longer than anyone waits."""
    sys.path.append(str(ROOT / "bench"))
    import families

    return families.pigeons(14).text()


def stop_case(page):
    """A search is stopped, and the page goes on."""
    page.open(example="arbiter.qdimacs")
    page.enter(endless())
    page.click("[data-job=solve]")
    page.tab.until("parseFloat(document.getElementById('clock').textContent) > 0.5")
    page.shot("running")
    page.click("#stop")
    page.tab.until("document.getElementById('stop').hidden")
    same((page.text("#verdict"), page.text("#meaning")), ("STOPPED", "You stopped it."), "the answer")
    page.enter("p cnf 0 0\n")
    page.do("solve")
    same(page.text("#verdict"), "SAT", "the verdict behind it")


def limits_case(page):
    """A search ends at the limit of seconds and at that of steps."""
    page.open(example="arbiter.qdimacs")
    page.enter(endless())
    page.tab.value("document.getElementById('seconds').value = 1")
    page.do("solve")
    same((page.text("#verdict"), page.text("#meaning")), ("STOPPED", "Stopped after 1 second."), "after a second")
    page.tab.value("document.getElementById('budget').value = 5")
    page.do("solve")
    same(page.text("#verdict"), "UNKNOWN", "after five steps")


def file_case(page):
    """Files are read: a short text, a long one, and bytes that are no text."""
    with tempfile.TemporaryDirectory() as folder:
        long = "p cnf 1 1\ne 1 0\n1 0\n" + "c a comment\n" * 100_000
        for name, data, verdict, is_shown in (("short", b"p cnf 1 1\na 1 0\n1 0\n", "UNSAT", True),
                                              ("long", long.encode(), "SAT", False),
                                              ("bytes", b"p cnf 1 1\ne 1 0\nc \xff\n1 0\n", "SAT", False)):
            path = Path(folder) / name
            path.write_bytes(data)
            page.open(example="arbiter.qdimacs")
            page.tab.choose_file("#file", path)
            page.tab.until(f"document.getElementById('story').textContent === 'Opened {name}.'")
            same(page.shown("#text"), is_shown, f"the text field for {name}")
            page.do("solve")
            same(page.text("#verdict"), verdict, f"the verdict of {name}")


def drop_case(page):
    """A file that is dropped on the page is opened."""
    page.open(example="arbiter.qdimacs")
    page.tab.value("""(() => {
      const files = new DataTransfer();
      files.items.add(new File(['p cnf 1 1\\na 1 0\\n-1 0\\n'], 'dropped'));
      for (const kind of ['dragover', 'drop']) {
        document.body.dispatchEvent(new DragEvent(kind, { dataTransfer: files, bubbles: true, cancelable: true }));
      }
    })()""")
    page.tab.until("document.getElementById('story').textContent === 'Opened dropped.'")
    page.do("solve")
    same(page.text("#verdict"), "UNSAT", "the verdict")


def link_case(page):
    """A link holds a text, and one that is too long has none."""
    text = "c ∀ names é\np cnf 1 1\na 1 0\n1 0\n"
    page.open(example="arbiter.qdimacs")
    page.enter(text)
    page.tab.value("document.querySelector('.limits').open = true")
    page.click("#link")
    page.tab.until("location.hash.startsWith('#text=')")
    page.tab.open(page.tab.value("location.href") + "&do=solve")
    page.tab.until("document.getElementById('verdict').textContent === 'UNSAT'")
    same(page.tab.value("document.getElementById('text').value"), text, "the text")
    page.enter("\n".join(str(random.random()) for _ in range(2000)))
    page.tab.value("document.querySelector('.limits').open = true")
    page.click("#link")
    page.tab.until("document.getElementById('linked').textContent === 'The text is too long for a link.'")


def keyboard_case(page):
    """A game is played by keys alone, from the top of the page to its end."""
    page.open(example="arbiter.qdimacs")
    page.tab.value("document.activeElement.blur()")
    visited = []
    for _ in range(20):
        page.tab.press("Tab")
        visited.append(page.tab.value("document.activeElement.dataset.job ?? document.activeElement.id"))
        if visited[-1] == "play":
            break
    same(visited, ["examples", "file", "text", "solve", "play"], "what Tab comes to")
    page.tab.press("Enter")
    page.tab.until("document.activeElement.matches('#scopes button')")
    page.tab.press(" ")
    same(page.tab.value("document.activeElement.getAttribute('aria-pressed')"), "true", "the value that Space chose")
    for _ in range(3):
        page.tab.press("Tab")
    page.tab.press("Enter")
    require(page.text("#outcome").startswith("The circuit wins"), page.text("#outcome"))
    same(page.tab.value("document.activeElement.id"), "again", "the focus at the end")
    page.tab.press("Enter")
    require(page.text("#outcome").startswith("Your move"), page.text("#outcome"))


def reader_case(page):
    """Each control has a name, and what changes is told."""
    for example, job in (("arbiter.qdimacs", "play"), ("arbiter.qdimacs", "circuit"), ("core.qdimacs", "proof"),
                         ("gate.qscript", "script")):
        page.open(example=example, do=job)
        page.tab.until(ANSWERED)
        page.tab.value("document.querySelectorAll('details').forEach(it => it.open = true)")
        same(page.tab.nameless(), [], f"controls without a name behind {job}")
    for selector in (".verdict", "#outcome", "#saved", "#linked"):
        same(page.tab.value(f"document.querySelector('{selector}').getAttribute('role')"), "status", selector)


def looks_case(page):
    """Text stands out in light and dark, and the page is as wide as a phone."""
    for scheme in ("light", "dark"):
        for width in (360, 1280):
            page.tab.look(width, 800, scheme)
            for example, job in (("early_grant.qdimacs", "play"), ("segments.qdimacs", "circuit"),
                                 ("counter_two_steps.qdimacs", "proof"), ("gate.qscript", "script")):
                page.open(example=example, do=job)
                page.tab.until(ANSWERED)
                if job == "proof":
                    page.tab.value("document.querySelector('#rows > li:last-child > button').click()")
                if job == "circuit" and width > 600:
                    page.tab.value("document.querySelector('#outputs button').click()")
                page.tab.value("document.querySelector('.limits').open = true")
                ratio, text = page.tab.value(FAINTEST)
                where = f"{job}, {scheme}, {width} pixels"
                require(ratio >= CONTRAST, f"{where}: {text!r} has a contrast of {ratio:.2f}")
                across = page.tab.value("document.documentElement.scrollWidth")
                require(across <= width, f"{where}: {across} pixels wide")
                page.tab.value("document.querySelector('.limits').open = false")
                page.shot(f"{job}-{scheme}-{width}")
    page.tab.look(1280, 800)


def play_pictures(page):
    """The pictures of a game, on its way and at its end."""
    page.tab.look(1280, 760)
    page.open(example="arbiter.qdimacs", do="play")
    page.tab.until("document.querySelectorAll('#scopes button.var').length > 0")
    for i in (1, 2):
        page.tab.value(f"document.querySelectorAll('#scopes button.var')[{i}].click()")
    page.shot("move")
    page.click("#scopes button.main")
    page.shot("end")


def main(program, folder=None):
    shots = Path(folder or tempfile.mkdtemp())
    shots.mkdir(parents=True, exist_ok=True)
    serving = functools.partial(Quiet, directory=WEB)
    with http.server.ThreadingHTTPServer(("127.0.0.1", 0), serving) as server:
        threading.Thread(target=server.serve_forever, daemon=True).start()
        address = f"http://127.0.0.1:{server.server_port}/"
        with browser.Browser(browser.found()) as tab:
            page = Page(program, tab, address, shots)
            page.tab.look(1280, 800)
            cases = [(f"formula_{it.stem}", functools.partial(formula_case, name=it.name))
                     for it in sorted(EXAMPLES.glob("*.qdimacs"))]
            cases += [(f"circuit_{it.stem}", functools.partial(circuit_case, name=it.name))
                      for it in sorted(EXAMPLES.glob("*.qcir"))]
            cases += [(f"script_{it.stem}", functools.partial(script_case, name=it.name))
                      for it in sorted(EXAMPLES.glob("*.qscript"))]
            cases += [(case.__name__, case) for case in (
                proof_case, graph_case, malformed_case, stop_case, limits_case, file_case, drop_case, link_case,
                keyboard_case, reader_case, looks_case, play_pictures)]
            failures = sum(not tried(name, case, page) for name, case in cases)
            failures += not tried("requests", lambda _: require(
                all(re.match(rf"{address}|data:|blob:{address}|about:blank", it) for it in tab.requests),
                [it for it in tab.requests if not it.startswith(address)]), page)
            failures += not tried("errors", lambda _: same(tab.errors, [], "what the browser complains of"), page)
        server.shutdown()
    return 1 if failures else 0


def tried(name, case, page):
    """Tries a case, and says how it went."""
    try:
        case(page)
    except (Failed, browser.Fault) as fault:
        print(f"FAILED page_{name}: {fault}", flush=True)
        return False
    print(f"ok page_{name}", flush=True)
    return True


if __name__ == "__main__":
    random.seed(1)
    sys.exit(main(*sys.argv[1:]))
