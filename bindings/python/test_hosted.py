"""Tasks that stop where they ask their host: python3 -m unittest, in this folder."""

import copy
import os
import threading
import unittest

from telgovan import Asked, Error, Executed, HostedTask, Program, assemble

EXAMPLES = os.path.join(os.path.dirname(os.path.abspath(__file__)), "../../examples")
ARITIES = {64: 1, 65: 2}


def ask():
    with open(os.path.join(EXAMPLES, "ask.bpf"), encoding="utf-8") as file:
        return Program(2, assemble(file.read()), ARITIES)


def helpers(told=None):
    """The helpers of the example, which note what they are given."""

    def weight(key, *rest):
        if told is not None:
            told.append((64, key, *rest))
        return 10 * key

    def both(first, second, *rest):
        if told is not None:
            told.append((65, first, second, *rest))
        return first + second

    return {64: weight, 65: both}


class Hosted(unittest.TestCase):
    def refused(self, number, call, *given, **named):
        with self.assertRaises(Error) as caught:
            call(*given, **named)
        self.assertEqual(caught.exception.number, number)

    def test_callables_answer(self):
        told, memory = [], bytearray([3, 4])
        with HostedTask(ask(), 2) as task:
            self.assertEqual(task.run(memory, helpers(told)), Executed(70, 32))
        self.assertEqual(memory, bytearray([70, 4]))
        self.assertEqual(
            told, [(64, 3, 0, 0, 0, 0), (64, 4, 0, 0, 0, 0), (65, 30, 40, 0, 0, 0)]
        )

    def test_an_answer_comes_later(self):
        memory, task = bytearray([1, 2]), HostedTask(ask(), 2)
        self.assertEqual(task.go(memory), Asked(64, (1, 0, 0, 0, 0)))
        memory[1] = 9  # the host may change it between two pieces
        self.assertEqual(task.go(memory, answer=2**64 - 1), Asked(64, (9, 0, 0, 0, 0)))
        self.assertEqual(task.go(memory, answer=1), Asked(65, (2**64 - 1, 1, 0, 0, 0)))
        self.assertEqual(task.go(memory, answer=5), Executed(5, 32))
        self.refused(47, task.go, memory)

    def test_any_slices_come_to_the_same(self):
        for limit in range(1, 9):
            memory, task, answer, told = bytearray([3, 4]), HostedTask(ask(), 2), 0, None
            while not isinstance(told, Executed):
                told = task.go(memory, answer, limit)
                if isinstance(told, Asked):
                    answer = helpers()[told.helper](*told.arguments)
            self.assertEqual((told, memory[0]), (Executed(70, 32), 70), limit)

    def test_a_limit_of_nothing_still_answers(self):
        memory, task = bytearray([3, 4]), HostedTask(ask(), 2)
        self.assertIsNone(task.go(memory, limit=0))
        self.assertEqual(task.go(memory), Asked(64, (3, 0, 0, 0, 0)))
        self.assertIsNone(task.go(memory, answer=30, limit=0))
        self.assertIsNone(task.go(memory, answer=99, limit=0))  # nothing waits any more
        self.assertEqual(task.run(memory, helpers()), Executed(70, 32))

    def test_two_tasks_of_one_program(self):
        program, memories = ask(), [bytearray([1, 2]), bytearray([3, 4])]
        tasks = [HostedTask(program, 2) for _ in memories]
        program.close()
        asked = [task.go(memory) for task, memory in zip(tasks, memories)]
        self.assertEqual([it.arguments[0] for it in asked], [1, 3])
        done = []
        for task, memory, it in zip(tasks, memories, asked):
            told = task.go(memory, helpers()[it.helper](*it.arguments))
            while isinstance(told, Asked):
                told = task.go(memory, helpers()[told.helper](*told.arguments))
            done.append(told.r0)
        self.assertEqual(done, [30, 70])

    def test_refuses_what_is_too_little(self):
        program = ask()
        self.refused(42, HostedTask, program, 2, credit=31)
        self.refused(43, HostedTask, program, 1)
        self.refused(65, HostedTask, program, 65537)
        self.refused(65, HostedTask, program, 2, credit=2**31)
        self.refused(48, program.execute, bytearray(2))
        program.close()
        self.refused(41, HostedTask, program, 2)

    def test_refuses_another_memory(self):
        task = HostedTask(ask(), 2)
        self.refused(43, task.go, bytearray(3))
        self.refused(43, task.go, bytearray(1))
        self.assertEqual(task.run(bytearray([3, 4]), helpers()).r0, 70)

    def test_refuses_a_task_that_is_gone(self):
        task = HostedTask(ask(), 2)
        task.close()
        task.close()
        self.refused(47, task.go, bytearray(2))

    def test_refuses_helpers_that_there_cannot_be(self):
        code = assemble("mov64 r0, 0\nexit")
        self.refused(44, Program, 0, code, {63: 0})
        self.refused(44, Program, 0, code, {128: 0})
        self.refused(45, Program, 0, code, {64: 6})
        self.refused(37, Program, 0, assemble("call 65\nexit"), {64: 0})
        self.refused(31, Program, 0, assemble("call 64\nexit"), {64: 4})

    def test_a_program_that_asks_nothing(self):
        program = Program(0, assemble("mov64 r0, 7\nexit"), {64: 5})
        self.assertEqual(HostedTask(program, 0).run(bytearray(), {}), Executed(7, 2))

    def test_the_last_helper(self):
        program = Program(0, assemble("call 127\nexit"), {127: 0})
        done = HostedTask(program, 0).run(bytearray(), {127: lambda *_: -1})
        self.assertEqual(done.r0, 2**64 - 1)

    def test_a_task_goes_to_another_thread(self):
        task, memory, told = HostedTask(ask(), 2), bytearray([3, 4]), []
        asked = task.go(memory)
        answer = helpers()[64](*asked.arguments)

        def finish():
            first = task.go(memory, answer)
            told.append(first.arguments[0])

        thread = threading.Thread(target=finish)
        thread.start()
        thread.join()
        self.assertEqual(told, [4])

    def test_a_helper_that_fails_leaves_the_task(self):
        def fails(*_):
            raise KeyError("no such key")

        task, memory = HostedTask(ask(), 2), bytearray([3, 4])
        with self.assertRaises(KeyError):
            task.run(memory, {64: fails})
        # it waits for the answer still
        self.assertEqual(task.go(memory, answer=30), Asked(64, (4, 0, 0, 0, 0)))

        self.assertEqual(task.run(memory, helpers()).r0, 70)

    def test_is_not_copied(self):
        with self.assertRaises(TypeError):
            copy.copy(HostedTask(ask(), 2))


class Waiting(unittest.TestCase):
    """A question that waits stays asked until it is answered."""

    def setUp(self):
        self.task, self.memory = HostedTask(ask(), 2), bytearray([3, 4])
        self.first, self.second = Asked(64, (3, 0, 0, 0, 0)), Asked(64, (4, 0, 0, 0, 0))

    def done(self):
        """The task goes on to its end, as if nothing had happened."""
        self.assertEqual(self.task.run(self.memory, helpers()), Executed(70, 32))
        self.assertEqual((self.memory[0], self.task.question), (70, None))

    def test_a_run_answers_what_go_was_asked(self):
        told = []
        self.assertEqual(self.task.go(self.memory), self.first)
        self.assertEqual(self.task.run(self.memory, helpers(told)), Executed(70, 32))
        self.assertEqual([call[:2] for call in told], [(64, 3), (64, 4), (65, 30)])

    def test_a_run_without_the_helper(self):
        for missing in (64, 65):
            self.setUp()
            given = helpers()
            del given[missing]
            for _ in range(3):
                self.assertRaises(KeyError, self.task.run, self.memory, given)
                self.assertEqual(self.task.question.helper, missing)
            self.done()

    def test_a_run_without_the_helper_is_answered_by_go(self):
        self.assertRaises(KeyError, self.task.run, self.memory, {})
        self.assertEqual(self.task.go(self.memory, answer=30), self.second)
        self.done()

    def test_a_run_whose_helper_fails(self):
        def fails(*_):
            raise OSError("not now")

        for failing in ({64: fails}, {**helpers(), 65: fails}):
            self.setUp()
            for _ in range(3):
                self.assertRaises(OSError, self.task.run, self.memory, failing)
            self.done()

    def test_a_run_whose_helper_answers_no_number(self):
        for odd in (None, "30", 30.0):
            self.assertRaises(TypeError, self.task.run, self.memory, {64: lambda *_, odd=odd: odd})
            self.assertEqual(self.task.question, self.first)
        self.done()

    def test_go_without_an_answer_asks_once_more(self):
        for _ in range(3):
            self.assertEqual(self.task.go(self.memory), self.first)
            self.assertEqual(self.task.go(self.memory, limit=0), self.first)
        self.assertEqual(self.task.go(self.memory, answer=30), self.second)
        self.done()

    def test_an_answer_of_nothing_is_one(self):
        self.task.go(self.memory)
        self.task.go(self.memory, answer=0)
        self.assertEqual(self.task.go(self.memory, 0), Asked(65, (0, 0, 0, 0, 0)))

    def test_a_refusal_leaves_it_asked(self):
        self.task.go(self.memory)
        for wrong in (bytearray(3), bytearray(1), bytearray()):
            for answer in (30, None):
                with self.assertRaisesRegex(Error, "refused 43"):
                    self.task.go(wrong, answer)
                self.assertEqual(self.task.question, self.first)
        self.assertRaises(TypeError, self.task.go, bytes(2))
        self.assertRaises(ValueError, self.task.go, self.memory, 2**64)
        self.done()

    def test_a_helper_that_answers_for_itself(self):
        """The number that it returns isn't taken for the answer of the next question."""
        given = helpers()

        def answers(key, *_):
            if key == 3:
                self.assertEqual(self.task.go(self.memory, 30), self.second)
                return 999
            return 10 * key

        self.assertEqual(self.task.run(self.memory, {**given, 64: answers}), Executed(70, 32))

    def test_another_thread_answers_meanwhile(self):
        asked, answered = threading.Event(), threading.Event()

        def waits(key, *_):
            if key == 3:
                asked.set()
                answered.wait()
                return 999
            return 10 * key

        def answer():
            asked.wait()
            self.task.go(self.memory, 30)
            answered.set()

        thread = threading.Thread(target=answer)
        thread.start()
        done = self.task.run(self.memory, {**helpers(), 64: waits})
        thread.join()
        self.assertEqual(done, Executed(70, 32))

    def test_nothing_waits_in_what_is_closed_or_made_once_more(self):
        self.task.go(self.memory)
        self.task.__init__(ask(), 2)
        self.assertIsNone(self.task.question)
        self.task.go(self.memory)
        self.task.close()
        self.assertIsNone(self.task.question)
        for call in (self.task.go, lambda memory: self.task.run(memory, helpers())):
            with self.assertRaisesRegex(Error, "refused 47"):
                call(self.memory)


if __name__ == "__main__":
    unittest.main()
