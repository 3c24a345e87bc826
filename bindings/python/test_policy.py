"""What a policy lets through, as unit tests: python3 -m unittest in this folder, or pytest."""
import copy
import ipaddress
import pickle
import struct
import threading
import unittest
from unittest import mock

import racl
from racl import Direction, End, Judge, JudgesLeft, PolicyFault, RuleCounts, Session, Verdict, check, line_of

POLICY = """\
mac 02:00:00:00:00:01
out permit+reflect ipv4 10.0.0.0/8 any udp dport 53
in permit ipv4 any any tcp dport 22
"""
OWN, PEER = bytes([2, 0, 0, 0, 0, 1]), bytes([2, 0, 0, 0, 0, 2])
HOST, SERVER = bytes([10, 0, 0, 1]), bytes([192, 0, 2, 53])
UDP, TCP = 17, 6


def frame(is_outward, protocol, from_port, to_port):
    """A frame between the host and the server: Ethernet, IPv4 (RFC 791), and UDP or TCP with SYN."""
    if protocol == UDP:
        payload = struct.pack(">HHHH", from_port, to_port, 8, 0)
    else:
        payload = struct.pack(">HHIIBBHHH", from_port, to_port, 0, 0, 5 << 4, 2, 0, 0, 0)
    ends = (HOST, SERVER) if is_outward else (SERVER, HOST)
    header = struct.pack(">BBHHHBBH4s4s", 0x45, 0, 20 + len(payload), 0, 0, 64, protocol, 0, *ends)
    return (PEER + OWN if is_outward else OWN + PEER) + b"\x08\x00" + header + payload


class PolicyTest(unittest.TestCase):
    def setUp(self):
        self.judge = Judge(POLICY, udp=30)

    def test_names_are_asked_and_answered(self):
        asked = self.judge.judge(frame(True, UDP, 4000, 53), time=10)
        self.assertEqual((asked.verdict, asked.rule, asked.direction), (Verdict.REFLECT, 1, Direction.OUTBOUND))
        self.assertTrue(self.judge.judge(frame(False, UDP, 53, 4000), time=40).passes)

    def test_an_answer_that_comes_too_late_is_dropped(self):
        self.judge.judge(frame(True, UDP, 4000, 53), time=10)
        self.assertEqual(self.judge.judge(frame(False, UDP, 53, 4000), time=41).verdict, Verdict.BY_DEFAULT)

    def test_the_line_of_a_rule_is_told(self):
        self.assertEqual(line_of(POLICY, self.judge.judge(frame(False, TCP, 4000, 22))), 3)
        self.assertEqual(line_of(POLICY, self.judge.judge(frame(True, UDP, 4000, 123))), 0)
        self.assertEqual(check(POLICY), "policy: rules 2 sections 1\n")

    def test_nothing_else_goes_out(self):
        self.assertFalse(self.judge.judge(frame(True, UDP, 4000, 123)).passes)

    def test_the_shell_is_reached_and_its_answers_are_not_let_out(self):
        self.assertEqual(self.judge.judge(frame(False, TCP, 4000, 22)).rule, 1)
        self.assertFalse(self.judge.judge(frame(True, TCP, 22, 4000)).passes)

    def test_sessions_stay_where_the_policy_is_replaced(self):
        self.judge.judge(frame(True, UDP, 4000, 53), time=10)
        self.judge.set_policy("in deny ipv4 any any\n")
        self.assertEqual(self.judge.judge(frame(False, UDP, 53, 4000), time=11).verdict, Verdict.SESSION)
        self.assertEqual(self.judge.judge(frame(False, UDP, 53, 4001), time=11).verdict, Verdict.DENY)
        self.assertEqual(self.judge.counts()["session"], 1)

    def test_sessions_and_rules_are_told(self):
        counts = RuleCounts(POLICY)
        for told in (frame(True, UDP, 4000, 53), frame(False, UDP, 53, 4000), frame(False, TCP, 4000, 22)):
            counts.count(self.judge.judge(told, time=10))
        self.assertEqual([counts.of(it, 1) for it in (Direction.OUTBOUND, Direction.INBOUND)], [1, 1])
        host, server = (End(ipaddress.ip_address(it), port, 0) for it, port in ((HOST, 4000), (SERVER, 53)))
        self.assertEqual(self.judge.close(), [Session(0, UDP, host, server, 10, 40)])
        self.assertEqual(self.judge.close(), [])

    def test_the_line_of_a_fault_is_told(self):
        with self.assertRaises(PolicyFault) as told:
            self.judge.set_policy("\nout permits ipv4 any any\n")
        self.assertEqual(told.exception.line, 2)
        self.assertIn("line 2: `permits` is no action", str(told.exception))
        with self.assertRaises(ValueError):
            Judge(POLICY, udp=0)

    def test_a_burst_is_answered_as_single_frames_are(self):
        frames = [frame(True, UDP, 4000, 53), frame(False, UDP, 53, 4000), frame(False, UDP, 53, 4000), frame(False, TCP, 4000, 22)[:30]]
        answers = self.judge.judge_burst(frames, time=(10, 40, 71, 71))
        self.assertEqual([it.verdict for it in answers], [Verdict.REFLECT, Verdict.SESSION, Verdict.BY_DEFAULT, Verdict.MALFORMED])
        alone = Judge(POLICY, udp=30)
        self.assertEqual(answers, [alone.judge(it, time=time) for it, time in zip(frames, (10, 40, 71, 71))])
        self.assertEqual(self.judge.counts(), alone.counts())
        many = self.judge.judge_burst((frames[0] for _ in range(1000)), time=100)
        self.assertEqual([many[0].verdict, *{it.verdict for it in many[1:]}], [Verdict.REFLECT, Verdict.SESSION])
        self.assertEqual(self.judge.judge_burst([]), [])
        self.assertEqual(self.judge.judge_burst(frames[:1], time=100, interface=7)[0].verdict, Verdict.BY_DEFAULT)

    def test_sessions_that_ended_are_swept(self):
        for large in (False, True):
            judge = Judge(POLICY, udp=30, large=large)
            for port in range(100):
                judge.judge(frame(True, UDP, 4000 + port, 53), time=10)
            self.assertEqual([judge.sweep(40), judge.sweep(41), judge.sweep(42)], [0, 100, 0])
            self.assertEqual(judge.close(), [])


class JudgesTest(unittest.TestCase):
    """Several judges, and several threads."""

    def setUp(self):
        self.judge = Judge(POLICY, udp=30)

    def in_threads(self, work, given):
        failed = []

        def guarded(it):
            try:
                work(it)
            except BaseException as error:  # (a thread's own would be lost)
                failed.append(error)

        threads = [threading.Thread(target=guarded, args=(it,)) for it in given]
        for it in threads:
            it.start()
        for it in threads:
            it.join()
        self.assertEqual(failed, [])

    def test_threads_take_turns_at_one_judge(self):
        asks, answers = frame(True, UDP, 4000, 53), frame(False, UDP, 53, 4000)
        self.judge.judge(asks, time=10)

        def work(_):
            for number in range(100):
                self.assertEqual(self.judge.judge(answers, time=10).verdict, Verdict.SESSION)
                self.assertEqual({it.verdict for it in self.judge.judge_burst([answers] * 500, time=10)}, {Verdict.SESSION})
                if number % 20 == 0:
                    self.judge.set_policy(POLICY)
                    self.judge.sweep(10)
                    self.judge.join(self.judge.split())

        self.in_threads(work, range(4))
        self.assertEqual(self.judge.counts()["session"], 4 * 100 * 501)
        self.assertEqual(len(self.judge.close()), 1)

    def test_threads_have_judges_over_the_same_tables(self):
        self.judge.judge(frame(True, UDP, 4000, 53), time=10)
        others = [self.judge.split() for _ in range(4)]
        self.assertFalse(self.judge.is_lone)
        with self.assertRaises(JudgesLeft):
            self.judge.close()

        def work(judge):
            for number in range(500):
                self.assertEqual(judge.judge(frame(False, UDP, 53, 4000), time=10).verdict, Verdict.SESSION)

        self.in_threads(work, others)
        for it in others:
            self.judge.join(it)
        self.assertEqual((self.judge.is_lone, self.judge.counts()["session"], len(self.judge.close())), (True, 2000, 1))
        with self.assertRaises(ValueError):
            others[0].judge(frame(True, UDP, 4000, 53))

    def test_judges_that_take_from_each_other_at_once_do_not_wait_for_ever(self):
        pair = (self.judge, Judge(POLICY, udp=30))

        def work(at):
            for _ in range(500):
                pair[at].take_policy(pair[1 - at])

        self.in_threads(work, (0, 1))

    def test_a_policy_is_taken_and_timeouts_by_one_that_is_alone(self):
        brief = Judge("in deny ipv4 any any\n", udp=10)
        other = self.judge.split()
        with self.assertRaises(JudgesLeft):
            other.take_policy(brief)
        self.judge.join(other)
        self.judge.judge(frame(True, UDP, 4000, 53), time=10)
        self.judge.take_policy(brief)
        self.assertEqual(self.judge.judge(frame(False, UDP, 53, 4001), time=10).verdict, Verdict.DENY)
        self.assertEqual(self.judge.judge(frame(False, UDP, 53, 4000), time=21).verdict, Verdict.DENY)

    def test_only_another_judge_over_the_same_tables_is_joined(self):
        for other, fault in ((self.judge, ValueError), (Judge(POLICY), ValueError), (None, TypeError)):
            with self.assertRaises(fault):
                self.judge.join(other)

    def test_calls_that_met_another_judge_are_made_again(self):
        contended, library = racl._Answer(7, 0, 0, 0), racl._LIBRARY
        swept = [racl._Swept(7, 100, 3), racl._Swept(0, 4096, 2)]
        with mock.patch.object(library, "racl_judge", side_effect=[contended, contended, racl._Answer(16, 0, 1, 1)]) as judge, \
                mock.patch.object(library, "racl_sweep_ipv4", side_effect=swept) as sweep, \
                mock.patch.object(library, "racl_judge_burst", side_effect=[1, 0, 2]) as burst:
            self.assertEqual(self.judge.judge(b"").verdict, Verdict.SESSION)
            self.assertEqual(self.judge.sweep(50), 5)
            with self.assertRaises(ValueError):  # (the answers are zeros)
                self.judge.judge_burst([b"frame"] * 3)
        self.assertEqual(judge.call_count, 3)
        self.assertEqual([it.args[1:3] for it in sweep.call_args_list], [(0, 4096), (100, 4096)])
        self.assertEqual([it.args[4] for it in burst.call_args_list], [3, 2, 2])

    def test_there_are_no_copies(self):
        for it in (self.judge, RuleCounts(POLICY)):
            for copied in (copy.copy, copy.deepcopy, pickle.dumps):
                with self.assertRaises(TypeError):
                    copied(it)
        del it
        self.assertTrue(self.judge.judge(frame(True, UDP, 4000, 53), time=10).passes)


class GivenTest(unittest.TestCase):
    """What is given in the wrong range, or of the wrong kind, is told and never taken for something else."""

    def setUp(self):
        self.judge = Judge(POLICY, udp=30)

    def test_numbers_have_ranges(self):
        asks, counts = frame(True, UDP, 4000, 53), RuleCounts(POLICY)
        answer = self.judge.judge(asks)
        for name in ("established", "transient", "udp"):
            for number in (0, -1, 2**32, 2**32 + 5):
                self.assertRaises(ValueError, Judge, POLICY, **{name: number})
            self.assertRaises(TypeError, Judge, POLICY, **{name: 1.5})
            self.assertRaises(TypeError, Judge, POLICY, **{name: "1"})
            Judge(POLICY, **{name: 2**32 - 1})
        for call in (lambda it: self.judge.judge(asks, time=it), self.judge.sweep, lambda it: self.judge.judge_burst([asks], time=it),
                     lambda it: self.judge.judge_burst([asks, asks], time=(0, it))):
            for number in (-1, 2**32):
                self.assertRaises(ValueError, call, number)
            self.assertRaises(TypeError, call, 1.5)
        self.assertRaises(ValueError, self.judge.judge_burst, [asks], time=(1, 2))
        for call in (lambda it: self.judge.judge(asks, interface=it), lambda it: self.judge.judge_burst([asks], interface=it),
                     lambda it: line_of(POLICY, answer, interface=it), lambda it: counts.count(answer, interface=it),
                     lambda it: counts.of(Direction.INBOUND, 1, interface=it)):
            for number in (-1, 256, 2**32):
                self.assertRaises(ValueError, call, number)
            self.assertRaises(TypeError, call, "1")
        self.assertRaises(ValueError, counts.of, Direction.INBOUND, -1)
        self.assertEqual(self.judge.counts()["reflect"], 1)
        self.assertEqual(self.judge.judge(asks, time=2**32 - 1, interface=255).verdict, Verdict.BY_DEFAULT)

    def test_a_frame_is_bytes(self):
        asks = frame(True, UDP, 4000, 53)
        for wrong in (100, 0, True, "frame", None, [1, 2], list(asks), 1.5):
            self.assertRaises(TypeError, self.judge.judge, wrong)
            self.assertRaises(TypeError, self.judge.judge_burst, [wrong])
        self.assertEqual(sum(self.judge.counts().values()), 0)

        class Packet:
            def __bytes__(self):
                return asks

        for right in (asks, bytearray(asks), memoryview(asks), memoryview(asks + asks)[:len(asks)], Packet()):
            self.assertTrue(self.judge.judge(right, time=10).passes)

    def test_a_policy_is_text(self):
        for wrong in (None, 5, [POLICY], 1.5):
            for call in (Judge, check, RuleCounts, self.judge.set_policy):
                self.assertRaises(TypeError, call, wrong)
        self.assertEqual(check(bytearray(POLICY.encode())), check(POLICY))
        with self.assertRaises(PolicyFault) as told:
            Judge(b"\xff\n")
        self.assertEqual(told.exception.line, 0)


if __name__ == "__main__":
    unittest.main()
