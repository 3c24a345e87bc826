"""Devices that take few bytes at a time, named files whose reading fails, and saved files that can't be synced."""
import errno
import os

from support.captures import parts_of, records_of, report_of
from support.cases import FEW_WORKERS, Case, bytes_of_file, each, wanted
from support.large_inputs import strangers

# How many packets of 58 bytes the shorter capture has.
FEW = 6 * 2048


class ShortWrites(Case):
    def setUp(self):
        super().setUp()
        data, self.verdicts = strangers()
        first, parts = parts_of(data)
        self.whole = parts[0][1]
        self.short = self.whole[:24 + 58 * FEW]
        self.policy, self.capture = self.hold("policy", first), self.hold("capture", self.short)
        self.drops, self.passes = f"{self.folder}/drops", f"{self.folder}/passes"
        self.words = ["--drops", self.drops, "--passes", self.passes, self.policy, self.capture]
        self.report = report_of(self.verdicts[:FEW])
        self.nothing = {self.drops: None, self.passes: None}
        self.chosen = {path: self.short[:24] + b"".join(it for it, said in zip(records_of(self.short)[1], self.verdicts) if said.startswith(word))
                       for path, word in ((self.drops, "drop"), (self.passes, "pass"))}
        self.env = self.interrupting()

    def saved(self):
        """What was saved, which is removed."""
        found = {path: bytes_of_file(path) if os.path.exists(path) else None for path in self.nothing}
        for path in (it for it in found if found[it] is not None):
            os.remove(path)
        return found

    @each((f"at most {most} bytes", most) for most in ("1000000", "4093", "7"))
    def few_bytes(self, most):
        for number in FEW_WORKERS:
            got = self.program.run(["--workers", number, *self.words[4:]], env={**self.env, "MOST_WRITTEN": most})
            self.compare(got, wanted(self.report), f"{number} workers")
            got = self.program.run(["--workers", number, *self.words], env={**self.env, "MOST_WRITTEN": most})
            self.compare({**got, **self.saved()}, {**wanted(self.report), **self.chosen}, f"{number} workers", "saved")

    @each((f"read {failing} of the {name} fails", name, failing) for name, failing in (("policy", "1"), ("capture", "1"), ("capture", "2")))
    def failed_read(self, name, failing):
        self.hold("capture", self.whole)
        env = {**self.env, "FAILED_FILE": f"{self.folder}/{name}", "FAILED_READ": failing}
        for number in FEW_WORKERS:
            for asked in (self.words[4:], self.words):
                got = self.program.run(["--workers", number, *asked], env=env)
                want = {**wanted(stderr="racl: read failed\n", status=4), **self.nothing}
                self.compare({**got, **self.saved()}, want, f"{number} workers", f"{len(asked)} words")

    def test_failed_read_as_packets_come(self):
        self.hold("capture", self.whole)
        # (the header, and then 32 KiB)
        lines = b"".join(b"%d %s\n" % (number, it.encode()) for number, it in enumerate(self.verdicts[:32768 // 58], 1))
        for failing, told in (("1", b""), ("2", b""), ("3", lines)):
            env = {**self.env, "FAILED_FILE": self.capture, "FAILED_READ": failing}
            got = self.program.run(["--live", self.policy, self.capture], env=env)
            self.compare(got, wanted(told, "racl: read failed\n", 4), f"read {failing}")

    def test_failed_sync(self):
        for code in (errno.EIO, errno.ENOSPC, errno.EDQUOT):
            got = self.program.run(self.words, env={**self.env, "FAILED_SYNC": str(code)})
            told = "".join(f"racl: {path}: {os.strerror(code)} (os error {code})\n" for path in (self.drops, self.passes))
            self.compare({**got, **self.saved()}, {**wanted(self.report, told, 4), **self.nothing}, code)

    def test_nothing_to_be_synced(self):
        for code in (errno.EINVAL, errno.ENOTSUP):
            got = self.program.run(self.words, env={**self.env, "FAILED_SYNC": str(code)})
            self.compare({**got, **self.saved()}, {**wanted(self.report), **self.chosen}, code)
        got = self.program.run(["--drops", "/dev/null", *self.words[4:]], env={**self.env, "FAILED_SYNC": str(errno.EIO)})
        self.compare(got, wanted(self.report), "a device")

    def test_failures_leave_what_was_there(self):
        older = {path: b"older" for path in self.nothing}
        for path, data in older.items():
            self.hold(os.path.basename(path), data)
        before = sorted(os.listdir(self.folder))
        got = self.program.run(self.words, env={**self.env, "FAILED_SYNC": str(errno.EIO)})
        self.compare({"status": got["status"], "there": sorted(os.listdir(self.folder)), **self.saved()},
                     {"status": 4, "there": before, **older})

    def test_full_device(self):
        got = self.program.run(["--passes", "/dev/full", *self.words[4:]])
        self.compare(got, wanted(stderr="racl: /dev/full: No space left on device (os error 28)\n", status=4))
