"""The page of a report (`racl-page`): it shows the report's own numbers, nothing of a policy or a name is markup, nothing is loaded
from elsewhere, and a browser renders it, where one is there."""
import html
import json
import os
import random
import re
import runpy
import shutil
import subprocess

from support.captures import CAPTURE, NAMES, parts_of
from support.cases import SECONDS, TOP, Case, bytes_of_file, each, names_in

PAGE = f"{TOP}/racl-page"
BROWSER = next(filter(None, map(shutil.which, ("chromium", "chromium-browser", "google-chrome"))), None)
HOSTILE = '<script>document.title="changed"</script><img src=http://127.0.0.1/x onerror=alert(1)>'


def page_of(words, data=b""):
    ran = subprocess.run([PAGE, *words], input=data, stdout=subprocess.PIPE, stderr=subprocess.PIPE, timeout=SECONDS)
    return {"stdout": ran.stdout.decode(), "stderr": ran.stderr.decode(), "status": ran.returncode}


def module_of(path):
    """The names that a script without an ending of its own defines."""
    return runpy.run_path(path, run_name="racl_page")


def shown(page):
    """What a page shows: its totals by their names, and its tables' rows, all as text."""
    totals = {name: count for name, count in re.findall(r"<dt>(.*?)</dt><dd>(.*?)</dd>", page)}
    rows = [[html.unescape(re.sub(r"<[^>]*>", "", it)) for it in re.findall(r"<td.*?>(.*?)</td>", row)]
            for row in re.findall(r"<tr>(<td.*?)</tr>", page)]
    return {"totals": totals, "rows": rows}


def spaced(count):
    return f"{count:,}".replace(",", "\u202f")


class Page(Case):
    @each((name, f"{TOP}/examples/{name}.racl") for name in names_in("examples", ".racl"))
    def stored(self, path):
        data = bytes_of_file(path)
        policy = parts_of(data)[0].decode().split("\n")
        report = self.program.run(["--json", "--hits"], data)
        told = list(map(json.loads, report["stdout"].splitlines()))
        totals = next(it for it in told if "pass" in it)
        rules = [[str(it["interface"]), f"{it['direction']} {it['rule']}", str(it["line"]),
                  policy[it["line"] - 1].strip(), spaced(it["packets"]), ""]
                 for it in told if "line" in it and "packets" in it]
        reasons = [[it["reason"], spaced(it["packets"])] for it in told if "reason" in it and "packets" in it]
        got = page_of(["--policy", self.hold("policy", "\n".join(policy).encode()), "-"], report["stdout"])
        self.compare(got, {"stderr": "", "status": 0}, "the page")
        page = shown(got["stdout"])
        self.compare(page["totals"], {"packets": spaced(totals["packets"]), "passed": spaced(totals["pass"]),
                                      "dropped": spaced(totals["drop"])}, "totals")
        self.compare({"rules": page["rows"][:len(rules)]}, {"rules": rules})
        texts = [it["text"] for it in told if "line" in it and "packets" in it]
        rows = shown(page_of([], report["stdout"])["stdout"])["rows"]
        self.compare({"texts": [it[3] for it in rows[:len(rules)]]}, {"texts": texts}, "without the policy")
        behind = [[it[0], it[2]] for it in page["rows"][len(rules):len(rules) + len(reasons)]]
        self.compare({"verdicts": behind}, {"verdicts": reasons})

    def test_hostile_text(self):
        policy = self.hold("policy", NAMES + f"in deny ipv4 any any # {HOSTILE}\n".encode())
        report = self.program.run(["--json", "--hits", policy, self.hold("capture", CAPTURE)])["stdout"]
        got = page_of(["--policy", policy, "--title", HOSTILE], report)
        self.compare(got, {"stderr": "", "status": 0})
        markup = got["stdout"]
        self.compare({"script": "<script" in markup, "image": "<img" in markup, "named": html.escape(HOSTILE, quote=True) in markup},
                     {"script": False, "image": False, "named": True}, "escaped")
        self.compare({"addresses": re.findall(r"(?:src|href|url\()\s*=?\s*['\"]?(?!#)[^\s>]*:", re.sub(r"&lt;.*?&gt;", "", markup))},
                     {"addresses": []}, "nothing is loaded")
        if BROWSER:
            path = self.hold("page.html", markup.encode())
            ran = subprocess.run([BROWSER, "--headless", "--no-sandbox", "--disable-gpu", f"--user-data-dir={self.folder}/browser",
                                  "--dump-dom", f"file://{path}"], stdout=subprocess.PIPE, stderr=subprocess.DEVNULL, timeout=SECONDS)
            shown_there = ran.stdout.decode()
            self.compare({"rendered": "<h2>Rules</h2>" in shown_there, "run": 'title>changed' in shown_there},
                         {"rendered": True, "run": False}, "in a browser")

    def test_changes(self):
        """A request that passed and its answer are dropped by a policy without a rule."""
        old, new, capture = self.hold("old", NAMES), self.hold("new", NAMES.split(b"\n")[0] + b"\n"), self.hold("capture", CAPTURE)
        report = self.program.run(["--json", new, capture])["stdout"]
        told = self.hold("changes", self.program.run(["diff", old, new, capture])["stdout"])
        got = page_of(["--changes", told, "-"], report)
        self.compare(got, {"stderr": "", "status": 0})
        rows = [["pass rule 1 reflect", "drop default", "1: interface 0 out time 100 udp 10.0.0.1 port 1000 to 10.0.0.2 port 53", "1", ""],
                ["pass session", "drop default", "2: interface 0 in time 105 udp 10.0.0.2 port 53 to 10.0.0.1 port 1000", "1", ""]]
        self.compare({"changes": shown(got["stdout"])["rows"][:2]}, {"changes": rows})
        wrong = self.hold("wrong", b"1 pass session\n")
        self.compare(page_of(["--changes", wrong, "-"], report),
                     {"stdout": "", "stderr": f"racl-page: {wrong}: line 1 is none of racl diff\n", "status": 1})

    def test_another_policy(self):
        report = self.program.run(["--json", "--hits", self.hold("policy", NAMES), self.hold("capture", CAPTURE)])["stdout"]
        other = self.hold("other", b"\n" + NAMES)
        said = f"racl-page: -: the report has a rule `out` at line 2 of its policy, and {other} has none there\n"
        self.compare(page_of(["--policy", other, "-"], report), {"stdout": "", "stderr": said, "status": 1})

    @each([("no object", b'{"packets":0,"pass":0,"drop":0}\n1\n', "line 2 is no object of racl --json"),
           ("plain lines", b"1 pass session\n", "line 1 is no object of racl --json"),
           ("no totals", b"", "the totals are missing: the report isn't whole")])
    def wrong(self, data, told):
        self.compare(page_of([], data), {"stdout": "", "stderr": f"racl-page: -: {told}\n", "status": 1})

    def test_corrupted(self):
        """Of each corrupted report a page is made, or its line is named."""
        report = self.program.run(["--json", "--hits", "--sessions", self.hold("policy", NAMES), self.hold("capture", CAPTURE)])["stdout"]
        page, chance = module_of(PAGE), random.Random(7)
        values = [b"null", b"true", b"-1", b"1.5", b"1e999", b"NaN", b"[]", b"{}", b'"x"', b"9" * 30, b'"\\ud800"', b"[" * 3000]
        told = 0
        for _ in range(1500):
            mutated = bytearray(report)
            for _ in range(chance.randrange(1, 4)):
                at = chance.randrange(len(mutated))
                if chance.random() < .5:
                    found = [it.span(1) for it in re.finditer(rb':("[^"]*"|-?[\d.]+)', bytes(mutated))] or [(at, at + 1)]
                    start, end = chance.choice(found)
                    mutated[start:end] = chance.choice(values)
                else:
                    mutated[at:at + chance.randrange(4)] = bytes(chance.randrange(256) for _ in range(chance.randrange(3)))
            try:
                read = page["read_report"](bytes(mutated).splitlines(keepends=True))
                page["page"](read, "name", None, None).encode("utf-8", "replace")
            except page["Wrong"]:
                told += 1
        self.compare({"some are told, and some are shown": 0 < told < 1500}, {"some are told, and some are shown": True})

    def test_order_of_characters(self):
        """What would show a line in another order stands as its number."""
        policy = self.hold("policy", NAMES + "in deny ipv4 any any # \u202eyna timrep\u202c\n".encode())
        report = self.program.run(["--json", "--hits", policy, self.hold("capture", CAPTURE)])["stdout"]
        got = page_of(["--policy", policy, "-"], report)
        self.compare({"raw": "\u202e" in got["stdout"], "shown": "\\u{202e}yna timrep\\u{202c}" in got["stdout"]}, {"raw": False, "shown": True})

    def test_no_file(self):
        name = os.path.join(self.folder, "none")
        self.compare(page_of([name]), {"stdout": "", "stderr": f"racl-page: {name}: No such file or directory\n", "status": 4})
