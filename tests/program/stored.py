"""The inputs that are stored with their reports, on each number of workers."""
import os

from support.cases import TOP, WORKERS, Case, bytes_of_file, each, names_in, wanted


class Stored(Case):
    @each((f"{folder}/{name}", f"{TOP}/{folder}/{name}") for folder in ("examples", "tests/corpus")
          for name in names_in(folder, ".racl"))
    def stored(self, path):
        data = bytes_of_file(f"{path}.racl")
        if not os.path.exists(f"{path}.report"):
            self.fail("no report")
        report = bytes_of_file(f"{path}.report")
        for words in ([], *(["--workers", it] for it in WORKERS)):
            self.compare(self.program.run(words, data), wanted(report), *words)
        self.compare_lines([], data, wanted(report, status=3 if b"truncated after" in report else 0))

    def test_files_of_the_gate(self):
        for stored, example in (("stdin", "racl"), ("stdout", "report")):
            self.compare({"text": bytes_of_file(f"{TOP}/crates/racl/{stored}")},
                         {"text": bytes_of_file(f"{TOP}/examples/first_path.{example}")}, stored)
