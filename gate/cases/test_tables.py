"""The program's answers beside those that were worked out by hand: the cases of `tables/`.

A further case is one call in the list of the module that fits it; `tables/building.py` has the calls.
"""

import tables
from fixtures import PROGRAM, WithProgram, parameterized


class Tables(WithProgram):
    @parameterized(tables.cases)
    def test_case(self, case):
        fault = case.run(PROGRAM)
        if fault:
            self.fail(fault)
