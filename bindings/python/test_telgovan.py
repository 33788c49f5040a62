"""The library's calls, through the module: python3 -m unittest, in this folder."""

import array
import copy
import doctest
import json
import os
import pickle
import threading
import unittest

import telgovan
from telgovan import (
    Desk,
    Error,
    Executed,
    Job,
    Machine,
    Program,
    assemble,
    disassemble,
    explain,
    graph,
    play_text,
    run_once,
    trace,
)

EXAMPLES = os.path.join(os.path.dirname(os.path.abspath(__file__)), "../../examples")


def load_tests(_loader, tests, _pattern):
    tests.addTests(doctest.DocTestSuite(telgovan))
    return tests


def source_of(name):
    with open(os.path.join(EXAMPLES, name), encoding="utf-8") as file:
        return file.read()


def packet(port):
    frame = bytearray(64)
    frame[12], frame[14], frame[23], frame[37] = 8, 0x45, 17, port
    return frame


class Refusing(unittest.TestCase):
    def refused(self, number, place, call, *given, **named):
        with self.assertRaises(Error) as caught:
            call(*given, **named)
        self.assertEqual((caught.exception.number, caught.exception.place), (number, place))
        return caught.exception


class Calls(Refusing):
    def setUp(self):
        self.program = Program(40, assemble(source_of("filter.bpf")))

    def test_runs_the_filter(self):
        machine = Machine(self.program)
        self.assertEqual(self.program.cost, 16)
        self.assertEqual(machine.execute(packet(53)), Executed(1, 16))
        self.assertEqual(machine.execute(packet(54)).r0, 0)

    def test_refuses_what_is_too_little(self):
        machine = Machine(self.program)
        self.refused(42, None, machine.execute, packet(53), credit=15)
        self.refused(43, None, machine.execute, bytearray(39))
        self.refused(43, None, machine.execute, bytearray())
        self.refused(65, None, machine.execute, bytearray(65537))

    def test_runs_pieces_in_turn(self):
        memory = packet(53) + packet(54) + packet(53)
        pieces = [(0, 64, 0), (64, 64, 0), (128, 64, 0), (128, 65, 0), (2**64 - 1, 1, 0)]
        told = Machine(self.program).burst(memory, pieces)
        self.assertEqual([run.r0 for run in told[:3]], [1, 0, 1])
        self.assertEqual([run.number for run in told[3:]], [43, 43])
        self.assertEqual(Machine(self.program).burst(memory, []), [])

    def test_leaves_what_a_run_leaves(self):
        machine = Machine(Program(1, assemble("stxb [r1+0], r3\nmov64 r0, 0\nexit")))
        memory = bytearray([9, 9, 9])
        machine.burst(memory, [(2, 1, 7), (0, 1, 8)])
        self.assertEqual(list(memory), [8, 9, 7])

    def test_tells_where_a_refusal_stands(self):
        self.refused(11, 2, assemble, "exit\nhalt")
        self.refused(23, 0, Program, 0, assemble("ja -1"))
        self.refused(38, None, Program, 65537, assemble("exit"))
        self.assertEqual(str(Error(23, 0)), f"refused 23 at slot 0: {Error(23).text}")
        self.assertEqual(str(Error(11, 2)), f"refused 11 in line 2: {Error(11).text}")

    def test_reads_back_what_it_writes(self):
        text = disassemble(self.program.code)
        self.assertEqual(len(text.splitlines()), 16)
        self.assertEqual(assemble(text), self.program.code)
        self.refused(2, None, disassemble, bytes(7))
        # a text that is longer than the first room
        longest = assemble("mov64 r0, -2147483648\n" * 4095 + "exit")
        self.assertEqual(assemble(disassemble(longest)), longest)

    def test_explains_a_refusal(self):
        source = source_of("byte_at.bpf")
        code = assemble(source)
        told = explain(15, code, source).splitlines()
        self.assertEqual(told[0], "refused 33: access out of the part at slot 2")
        self.assertIn("slot 2, line 5: ldxb r0, [r1+0]", told)
        self.assertIn("slot 2: ldxb r0, [r1+0]", explain(15, code).splitlines())
        self.assertIsNone(explain(16, code))
        # a text that is longer than the first room
        ladder = assemble("mov64 r0, 0\n" + "jeq r0, 0, +0\n" * 2000 + "ldxb r0, [r1+0]\nexit")
        self.assertGreater(len(explain(0, ladder)), 4096)

    def test_draws_a_graph(self):
        source = source_of("byte_at.bpf")
        code = assemble(source)
        drawn = graph(16, code, source)
        self.assertTrue(drawn.startswith("digraph program {\n") and drawn.endswith("}\n"))
        self.assertNotIn("red", drawn)
        self.assertIn("slot 2, line 5: ldxb r0, [r1+0]", drawn)
        self.assertIn('<font color="red">slot 2: ldxb r0, [r1+0]</font>', graph(15, code))
        self.refused(23, 0, graph, 0, assemble("ja -1"))
        self.refused(2, None, graph, 0, bytes(7))
        self.refused(38, None, graph, 65537, assemble("exit"))
        # a drawing that is longer than the first room
        ladder = assemble("mov64 r0, 0\n" + "jeq r0, 0, +0\n" * 500 + "exit")
        self.assertEqual(graph(0, ladder).count(" -> "), 1000)

    def test_traces_a_run(self):
        source = "ldxb r0, [r1+0]\n; twice\nstxh [r10-2], r0\nstxb [r1+1], r3\nexit"
        memory = bytearray([40, 9])
        steps = trace(2, assemble(source), memory, argument=7, source=source)
        self.assertEqual(memory, bytearray([40, 9]))
        told = [(step["slot"], step["insn"], step["line"], step["used"]) for step in steps]
        self.assertEqual(
            told,
            [
                (0, "ldxb r0, [r1+0]", 1, 1),
                (1, "stxh [r10-2], r0", 3, 2),
                (2, "stxb [r1+1], r3", 4, 3),
                (3, "exit", 5, 4),
            ],
        )
        self.assertEqual([step["registers"] for step in steps], [{"r0": "40"}, {}, {}, {}])
        self.assertEqual(steps[1]["stack"], {"at": 510, "bytes": "28"})
        self.assertEqual(steps[2]["part"], {"at": 1, "bytes": "07"})
        self.assertNotIn("line", trace(2, assemble(source), memory)[0])

    def test_traces_no_run_that_is_refused(self):
        code = assemble("ldxb r0, [r1+0]\nexit")
        self.refused(33, 0, trace, 0, code, b"")
        self.refused(42, None, trace, 1, code, b"1", credit=1)
        self.refused(43, None, trace, 1, code, b"")
        self.refused(65, None, trace, 1, code, bytes(65537))
        self.refused(65, None, trace, 1, code, b"1", credit=2**31)
        self.assertEqual(len(trace(1, code, b"1", credit=2)), 2)
        # as many steps as slots, in more room than there is at first
        longest = assemble("mov64 r0, 0\n" * 4095 + "exit")
        self.assertEqual(trace(0, longest, b"")[-1]["used"], 4096)

    def test_takes_no_number_that_is_cut(self):
        self.assertRaises(ValueError, Machine(self.program).execute, packet(53), credit=2**32)
        self.assertRaises(ValueError, Machine(self.program).execute, packet(53), argument=-1)
        self.assertRaises(ValueError, trace, 0, b"", b"", argument=2**64)
        self.assertRaises(ValueError, graph, 2**32, b"")


class Held(Refusing):
    def setUp(self):
        self.program = Program(40, assemble(source_of("filter.bpf")))

    def test_a_program_runs_many_times(self):
        for _ in range(3):
            self.assertEqual(self.program.execute(packet(53)), Executed(1, 16))
            self.refused(42, None, self.program.execute, packet(53), credit=15)

    def test_a_shared_program_outlives_the_first(self):
        other = self.program.share()
        self.program.close()
        self.program.close()
        self.refused(41, None, self.program.execute, packet(53))
        self.refused(41, None, self.program.burst, packet(53), [(0, 64, 0)])
        self.refused(41, None, self.program.share)
        self.assertEqual(other.execute(packet(53)), Executed(1, 16))
        with other.share() as third:
            self.assertEqual((third.cost, third.need), (16, 40))
        self.refused(41, None, third.execute, packet(53))

    def test_threads_run_side_by_side(self):
        told = []

        def work(program):
            told.append(sum(program.execute(packet(53)).r0 for _ in range(200)))

        # four with a program of their own, and four that wait for each other
        programs = [self.program.share() for _ in range(4)] + [self.program] * 4
        threads = [threading.Thread(target=work, args=(program,)) for program in programs]
        for thread in threads:
            thread.start()
        for thread in threads:
            thread.join()
        self.assertEqual(told, [200] * 8)

    def test_a_program_is_not_copied(self):
        self.assertRaises(TypeError, copy.copy, self.program)
        self.assertRaises(TypeError, copy.deepcopy, self.program)
        self.assertRaises(TypeError, pickle.dumps, self.program)

    def test_works_in_place_on_what_is_lent(self):
        store = Program(1, assemble("stxb [r1+0], r3\nmov64 r0, r2\nexit"))
        memory = bytearray(8)
        self.assertEqual(store.execute(memoryview(memory)[2:5], argument=7).r0, 3)
        self.assertEqual(list(memory), [0, 0, 7, 0, 0, 0, 0, 0])
        words = array.array("I", [0, 0])
        self.assertEqual(store.execute(words, argument=1).r0, 8)
        self.assertEqual(bytes(words)[0], 1)
        self.assertRaises(TypeError, store.execute, bytes(8))
        self.assertRaises(TypeError, store.execute, memoryview(memory)[::2])
        memory.append(1)  # nothing is lent any more

    def test_runs_once(self):
        self.assertEqual(run_once(40, self.program.code, packet(53)), Executed(1, 16))
        self.refused(42, None, run_once, 40, self.program.code, packet(53), credit=15)
        self.refused(23, None, run_once, 0, assemble("ja -1"), bytearray())


class Jobs(Refusing):
    def test_plays_a_job(self):
        buffer = bytearray(range(1, 65))
        report = Job((8, assemble(source_of("sum.bpf")))).play(buffer, 2000, room=6)
        self.assertEqual((report.spent, report.returned, report.count), (513, 1487, 8))
        self.assertEqual([task.number for task in report.tasks], [0, 1, 2, 3, 4, 5])
        sums = [int.from_bytes(buffer[n : n + 8], "little") for n in range(0, 64, 8)]
        self.assertEqual(sums, [36, 100, 164, 228, 292, 356, 420, 484])
        self.assertEqual((report.tasks[0].given, report.tasks[0].r0), (2000, 36))

    def test_spawns_another_program(self):
        job = Job((4, assemble(source_of("spawn.bpf"))), (4, assemble(source_of("child.bpf"))))
        for _ in range(2):
            buffer = bytearray(8)
            report = job.play(buffer, 34)
            self.assertEqual((report.spent, report.returned, report.count), (27, 7, 2))
            self.assertEqual(list(buffer), [0, 0, 0, 0, 9, 0, 0, 0])
            self.assertEqual([task.program for task in report.tasks], [0, 1])

    def test_tells_why_a_job_is_refused(self):
        code, unset, buffer = assemble("mov64 r0, 0\nexit"), assemble("exit"), bytearray([7] * 4)
        self.refused(61, None, Job().play, buffer, 1)
        self.refused(62, None, Job(*[(0, code)] * 17).play, buffer, 2)
        self.refused(65, None, Job((0, code)).play, buffer, 2**31)
        self.refused(65, None, Job((0, code)).play, bytearray(65537), 2)
        self.assertEqual(self.refused(31, 0, Job((0, code), (0, unset)).play, buffer, 2).program, 1)
        self.refused(63, None, Job((0, code)).play, buffer, 1)
        self.refused(64, None, Job((5, code)).play, buffer, 2)
        self.assertEqual(buffer, bytearray([7] * 4))
        self.assertEqual(str(Error(31, 0, 1)), f"refused 31 at slot 0 of program 1: {Error(31).text}")


def framed(text):
    payload = text.encode()
    return len(payload).to_bytes(4, "big") + payload


def unframed(given):
    """The replies that the bytes are the frames of."""
    told = []
    while given:
        size = int.from_bytes(given[:4], "big")
        told.append(json.loads(given[4 : 4 + size]))
        given = given[4 + size :]
    return told


class Desks(Refusing):
    def setUp(self):
        self.desk = Desk()
        self.client = self.desk.connect()
        self.sum = {"need": 8, "code": assemble(source_of("sum.bpf")).hex()}

    def ask(self, *requests, client=None):
        client = client or self.client
        self.desk.feed(client, b"".join(framed(json.dumps(request)) for request in requests))
        return unframed(self.desk.replies(client))

    def grant(self, amount, tenant="t"):
        return {"op": "grant", "tenant": tenant, "amount": amount}

    def submit(self, credit=2000, tenant="t"):
        buffer = bytes(range(1, 65)).hex()
        job = {"programs": [self.sum], "credit": credit, "buffer": buffer}
        return {"op": "submit", "tenant": tenant, **job}

    def test_a_job_goes_out_and_its_report_comes_back(self):
        told = self.ask(self.grant(5000), self.submit(), {"op": "status", "job": 1})
        self.assertEqual(told[1], {"job": 1, "ok": True})
        self.assertEqual(told[2], {"complete": False, "ok": True, "returned": 0, "spent": 0})
        number, text = self.desk.next_job()
        self.assertIsNone(self.desk.next_job())
        asked = self.submit()
        wanted = {name: asked[name] for name in ("programs", "credit", "buffer")}
        self.assertEqual((number, json.loads(text)), (1, wanted))
        report, buffer = play_text(text)
        self.desk.finish(number, report, buffer)
        result, account = self.ask({"op": "result", "job": 1}, {"op": "account", "tenant": "t"})
        self.assertEqual(result["buffer"], buffer.hex())
        self.assertEqual((result["spent"], result["returned"], len(result["tasks"])), (513, 1487, 8))
        self.assertEqual(
            result["tasks"][0],
            {"number": 0, "program": 0, "r0": 36, "ran": True, "rest": 171, "spent": 121},
        )
        self.assertEqual((account["spent"], account["open"], account["balance"]), (513, 0, 4487))

    def test_a_second_report_is_refused(self):
        self.ask(self.grant(5000), self.submit(), self.submit())
        self.refused(76, None, self.desk.fail, 1, 99)  # it still waits
        number, text = self.desk.next_job()
        told = play_text(text)
        self.desk.finish(number, *told)
        self.refused(76, None, self.desk.finish, number, *told)
        self.refused(76, None, self.desk.fail, number, 99)
        self.refused(76, None, self.desk.fail, 3, 99)
        self.assertEqual(self.ask({"op": "account", "tenant": "t"})[0]["open"], 2000)
        self.desk.next_job()
        self.desk.fail(2, 99)
        account = self.ask({"op": "account", "tenant": "t"})[0]
        self.assertEqual((account["open"], account["spent"]), (0, 513))
        self.assertEqual(self.ask({"op": "result", "job": 2}), [{"code": 99, "ok": False}])

    def test_a_report_that_does_not_add_up_is_82(self):
        self.ask(self.grant(5000), self.submit())
        number, text = self.desk.next_job()
        report, buffer = play_text(text)
        self.desk.finish(number, report._replace(spent=report.spent - 1), buffer)
        self.assertEqual(self.ask({"op": "result", "job": 1}), [{"code": 82, "ok": False}])
        self.assertEqual(self.ask({"op": "account", "tenant": "t"})[0]["balance"], 5000)

    def test_pieces_of_any_size_say_the_same(self):
        requests = [self.grant(9), self.submit(), {"op": "account", "tenant": "t"}, {"op": "x"}]
        whole = b"".join(framed(json.dumps(request)) for request in requests) + framed("no json")
        told = []
        for size in (1, 2, 3, 7, 64, len(whole)):
            desk = Desk()
            client, said = desk.connect(), b""
            for start in range(0, len(whole), size):
                desk.feed(client, whole[start : start + size])
                said += desk.replies(client, 5)
            while more := desk.replies(client, 11):
                said += more
            told.append(said)
        self.assertEqual(set(told), {told[0]})
        codes = [reply.get("code") for reply in unframed(told[0])]
        self.assertEqual(codes, [None, 75, None, 73, 72])

    def test_a_length_over_the_limit_is_the_last(self):
        self.refused(71, None, self.desk.feed, self.client, framed("[]") + b"\xff" * 9)
        codes = [reply["code"] for reply in unframed(self.desk.replies(self.client))]
        self.assertEqual(codes, [73, 71])
        self.refused(71, None, self.desk.feed, self.client, framed("[]"))
        self.assertEqual(self.desk.replies(self.client), b"")
        # the others go on
        other = self.desk.connect()
        self.assertEqual(self.ask(self.grant(1), client=other)[0]["granted"], 1)

    def test_connections_share_the_accounts(self):
        other = self.desk.connect()
        self.assertNotEqual(other, self.client)
        self.ask(self.grant(5000))
        self.assertEqual(self.ask(self.submit(), client=other), [{"job": 1, "ok": True}])
        self.desk.disconnect(other)
        self.refused(78, None, self.desk.feed, other, b"")
        self.refused(78, None, self.desk.replies, other)
        self.refused(78, None, self.desk.disconnect, other)
        self.refused(78, None, self.desk.feed, 0, b"")
        # its job is still there, and its number isn't given again
        self.assertEqual(self.desk.next_job().number, 1)
        self.assertEqual(self.desk.connect(), other + 1)

    def test_a_desk_that_is_closed(self):
        self.ask(self.grant(5000), self.submit())
        self.desk.close()
        self.desk.close()
        self.refused(41, None, self.desk.connect)
        self.refused(41, None, self.desk.next_job)
        self.refused(41, None, self.desk.feed, self.client, b"")
        self.refused(41, None, self.desk.replies, self.client)
        self.refused(41, None, self.desk.fail, 1, 99)
        self.assertRaises(ValueError, self.desk.fail, 1, 0)
        self.assertRaises(ValueError, self.desk.fail, 1, 256)
        self.assertRaises(TypeError, copy.copy, self.desk)

    def test_objects_and_replies_longer_than_a_room(self):
        self.ask(self.grant(10**6))
        buffer = bytes(60000).hex()
        code = {"need": 0, "code": assemble("mov64 r0, 0\nexit").hex()}
        job = {"op": "submit", "tenant": "t", "programs": [code], "credit": 2, "buffer": buffer}
        self.assertEqual(self.ask(job), [{"job": 1, "ok": True}])
        number, text = self.desk.next_job()
        self.assertEqual(json.loads(text)["buffer"], buffer)
        self.desk.finish(number, *play_text(text))
        self.desk.feed(self.client, framed('{"op":"result","job":1}'))
        said = b""
        while more := self.desk.replies(self.client, 1000):
            said += more
        self.assertEqual(unframed(said)[0]["buffer"], buffer)


if __name__ == "__main__":
    unittest.main()
