"""Compares answers of the program with those of the second implementation."""

from service.reference.answers import reference_answer

from .program import program_answer


class Differs(Exception):
    """Reports the input for which two answers differ, and both answers."""


class Answers:
    """Answers of the program, or of the second implementation if there is none. With a program both have to answer the same."""

    def __init__(self, program):
        self.program = program

    def of(self, words, data, part=lambda answer: answer):
        expected = reference_answer(words, data)
        if self.program is None:
            return expected
        answer = program_answer(self.program, words, data)
        if part(answer) != part(expected):
            raise Differs(data, answer, expected)
        return answer


def show(seed, data, answer, expected):
    print(f"seed {seed} differs, with the input:\n{data.decode(errors='backslashreplace')}")
    for who, (status, out) in (("answered", answer), ("expected", expected)):
        print(f"{who}: status {status}\n{out.decode(errors='backslashreplace')}")
