"""The cases that were written by hand, a module a subject, each with a list `CASES`; most of them are rows of a file `NAME.rows` beside the module.

What has to come was worked out from the documents. `building`, `plan_texts` and `texts` have no cases: the others share them.
"""

import importlib
import pkgutil
from typing import List


def cases() -> List:
    """All cases of the modules of this folder."""
    modules = [importlib.import_module(f"{__name__}.{it.name}") for it in pkgutil.iter_modules(__path__)]
    return [case for module in modules for case in getattr(module, "CASES", [])]
