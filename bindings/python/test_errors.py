"""Errors: the words and places that they tell, and their way from process to process."""

import copy
import pickle
import unittest
from concurrent.futures import ProcessPoolExecutor

from telgovan import Error, Job, Program, assemble, explain, run_once
from telgovan._refusals import REFUSALS


class Own(Error):
    """A refusal of a class of the caller's."""


def refused_by(call, *given, **named):
    try:
        call(*given, **named)
    except Error as error:
        return error
    raise AssertionError("nothing was refused")


def loads_too_far():
    return Program(9, assemble("ldxb r0, [r1+9]\nexit"))


class Told(unittest.TestCase):
    def told(self, error):
        return error.code, error.slot, error.line, error.program

    def test_where_it_stands(self):
        code, unset = assemble("mov64 r0, 0\nexit"), assemble("exit")
        self.assertEqual(self.told(refused_by(loads_too_far)), (33, 0, None, None))
        self.assertEqual(self.told(refused_by(assemble, "exit\nhalt")), (11, None, 2, None))
        self.assertEqual(self.told(refused_by(assemble, "")), (1, None, None, None))
        short = refused_by(Program(1, code).execute, bytearray())
        self.assertEqual(self.told(short), (43, None, None, None))
        job = Job((0, code), (0, unset))
        self.assertEqual(self.told(refused_by(job.play, bytearray(), 9)), (31, 0, None, 1))
        self.assertEqual(self.told(refused_by(job.open, b"", 9)), (31, 0, None, 1))
        # which tells no slot
        self.assertEqual(self.told(refused_by(job.trace, b"", 9, [0])), (31, None, None, 1))
        self.assertEqual(self.told(refused_by(run_once, 0, unset, bytearray())), (31, None, None, None))

    def test_the_older_names(self):
        for error in (Error(33, 7), Error(11, 2), Error(31, 0, 1), Error(43)):
            place = error.slot if error.line is None else error.line
            self.assertEqual((error.number, error.place), (error.code, place))

    def test_its_words(self):
        for code, (text, advice) in REFUSALS.items():
            error = Error(code)
            self.assertEqual((error.text, error.advice), (text, advice))
            self.assertEqual(str(error), f"refused {code}: {text}")
        # one of a later version
        self.assertEqual(Error(250).code, 250)
        self.assertTrue(Error(250).text and Error(250).advice)

    def test_each_refusal_that_a_call_answers_has_words(self):
        answered = [*range(1, 8), 11, 12, 13, *range(21, 26), *range(31, 39), 41, 42, 43, 44, 45]
        answered += [47, 48, *range(61, 66), 71, 76, 78, 99]
        self.assertEqual([code for code in answered if code not in REFUSALS], [])


class Copies(unittest.TestCase):
    ERRORS = (Error(33, 0), Error(11, 2), Error(31, 5, 1), Error(43), Own(76))

    def check(self, error, other):
        self.assertIs(type(other), type(error))
        told = [(it.code, it.place, it.program, it.text, str(it)) for it in (error, other)]
        self.assertEqual(*told)

    def test_it_pickles(self):
        for error in self.ERRORS:
            for protocol in range(pickle.HIGHEST_PROTOCOL + 1):
                self.check(error, pickle.loads(pickle.dumps(error, protocol)))

    def test_it_is_copied(self):
        for error in self.ERRORS:
            self.check(error, copy.copy(error))
            self.check(error, copy.deepcopy(error))

    def test_what_was_added_to_it_goes_along(self):
        error = Error(43)
        error.file = "packet"
        self.assertEqual(pickle.loads(pickle.dumps(error)).file, "packet")

    def test_it_comes_from_another_process(self):
        with ProcessPoolExecutor(1) as pool:
            error = refused_by(pool.submit(loads_too_far).result)
        self.check(Error(33, 0), error)

    def test_it_says_as_much_as_an_explanation(self):
        first = explain(9, assemble("ldxb r0, [r1+9]\nexit")).splitlines()[0]
        self.assertRegex(first, "^refused 33.* at slot 0$")
        self.assertRegex(str(refused_by(loads_too_far)), "^refused 33 at slot 0: ")


if __name__ == "__main__":
    unittest.main()
