"""The program's answers beside those of the plain model: the cases of `generated/`, always the same ones."""

import generated
from fixtures import PROGRAM, WithProgram, parameterized


class Generated(WithProgram):
    @parameterized(generated.cases)
    def test_case(self, case):
        fault = case.run(PROGRAM)
        if fault:
            self.fail(fault)
