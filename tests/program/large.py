"""Many packets, rules and flows, on several numbers of workers, with all lines and with fewer."""
from support.captures import NAMES, header, report_of, udp
from support.cases import Case, each, wanted
from support.large_inputs import LARGE

MORE_WORKERS = ("1", "2", "3", "16")


class Large(Case):
    @each(LARGE)
    def inputs(self, made):
        data, verdicts = made()
        want = wanted(report_of(verdicts))
        for number in MORE_WORKERS:
            self.compare(self.program.run(["--workers", number], data), want, f"{number} workers")
        self.compare_lines([], data, want)

    @each((f"tables for {it} workers", it) for it in ("1", "4"))
    def tables(self, number):
        """More flows than the standard tables have places for, and an answer of each: large tables keep them all."""
        flows = [(source, port) for source in range(1, 8) for port in range(1024, 11_024)]
        packets = [udp(100, True, it, (900, 53)) for it in flows] + [udp(101, False, (900, 53), it) for it in flows]
        data = NAMES.replace(b"10.0.0.1 ", b"any ") + b"pcap\n" + header() + b"".join(packets)
        whole = report_of(["pass rule 1 reflect"] * len(flows) + ["pass session"] * len(flows))
        words = ["--workers", number, "--tables"]
        self.compare(self.program.run([*words, "large"], data), wanted(whole), "large")
        got = self.program.run([*words, "standard"], data)
        verdicts = [it.partition(b" ")[2] for it in got["stdout"].splitlines()[:-1]]
        stored = verdicts[:len(flows)].count(b"pass rule 1 reflect")
        self.compare({"some": 256 < stored < 65_536, "refused": {*verdicts[:len(flows)]} - {b"pass rule 1 reflect", b"drop full"},
                      "answers": verdicts[len(flows):].count(b"pass session"), "status": got["status"]},
                     {"some": True, "refused": {b"drop no-pages"}, "answers": stored, "status": 0}, "standard")
