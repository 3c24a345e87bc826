"""What documents show: lines of policies, and the commands of a first hour."""
import os
import re
import shutil
import subprocess

from support.cases import SECONDS, TOP, Case, each, wanted

# Commands that documents show and that need not be there, and what stands in for `xxd -r -p`, without which no capture is made.
TOOLS = ("tcpdump", "tshark", "editcap", "mergecap")
XXD = b"#!/bin/sh\nexec python3 -c 'import sys; sys.stdout.buffer.write(bytes.fromhex(sys.stdin.read()))'\n"
# As the launcher does, the word `import` runs racl-import.
LAUNCHER = '#!/bin/sh\nif [ "$1" = import ]; then shift; exec "{0}/racl-import" "$@"; fi\nexec "{1}" "$@"\n'


def text_of(name):
    with open(f"{TOP}/{name}") as file:
        return file.read()


def lines_in_documents():
    """Each line of a policy that the documents show."""
    lines = set()
    for text in map(text_of, ("docs/POLICIES.md", "docs/FORMATS.md")):
        lines |= {*re.findall(r"`((?:in|out) (?:deny|permit)[^`\n]*)`", text)}
        lines |= {*re.findall(r"^(?:in|out) +(?:deny|permit).*$", text, re.M)}
    return sorted(lines)


LINES = lines_in_documents()


class Documents(Case):
    @each((f"line {it}", it) for it in LINES)
    def lines(self, line):
        got = self.program.run([], f"{line}\nhex\n".encode())
        self.compare(got, wanted(stderr="racl: capture header is short\n", status=1))

    def test_some_lines(self):
        self.compare({"some": len(LINES) > 10}, {"some": True})

    def test_commands(self):
        """One block after the other in a folder with the examples: each ends well, and what the document shows behind `writes` is
        what the block writes. Those that capture are left out, and those of a tool that isn't there."""
        found = re.findall(r"^```\n(.*?)^```$(?:\n\nwrites\n\n```\n(.*?)^```$)?", text_of("docs/POLICIES.md"), re.M | re.S)
        os.symlink(f"{TOP}/examples", f"{self.folder}/examples")
        os.chmod(self.hold("racl", LAUNCHER.format(TOP, self.program.path).encode()), 0o755)
        env = {**os.environ, "LC_ALL": "C"}
        if not shutil.which("xxd"):
            os.mkdir(f"{self.folder}/bin")
            os.chmod(self.hold("bin/xxd", XXD), 0o755)
            env["PATH"] = f"{self.folder}/bin:{env['PATH']}"
        for commands, shown in found:
            named = [it for it in TOOLS if re.search(rf"\b{it}\b", commands)]
            if " -i " in commands or not all(map(shutil.which, named)):
                continue
            ran = subprocess.run(["sh", "-u", "-c", commands], cwd=self.folder, env=env, timeout=SECONDS, stdin=subprocess.DEVNULL,
                                 stdout=subprocess.PIPE, stderr=subprocess.PIPE, text=True)
            said = [it for it in ran.stderr.splitlines() if it.startswith(("racl: ", "sh: "))]
            self.compare({"status": ran.returncode < 2, "said": said, "stdout": ran.stdout},
                         {"status": True, "said": [], "stdout": shown or None}, commands)
        self.compare({"some": len(found) > 10}, {"some": True})
