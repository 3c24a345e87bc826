"""The rows of tests/rows: each is a case, by the name of its file and what it shows."""
from support.cases import WORKERS, Case, each, shown
from support.row_files import all_rows


class Rows(Case):
    @each((it.name, it) for it in all_rows())
    def rows(self, row):
        words, want = row.words(), row.wanted()
        for data in row.inputs():
            if row.is_told:
                self.compare(self.program.run(words, data), want)
                continue
            for number in WORKERS if not row.has_fault else WORKERS[:1]:
                got = self.program.run([*words, "--workers", number], data)
                self.compare(got, want, shown(data), f"{number} workers")
