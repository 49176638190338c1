"""Plans that are no JSON, and plans with a member that is wrong."""

import form
from tables.building import answer, fault, rows
from tables.plan_texts import NODE, ONE_START, plan_of, rooted, wrong, wrong_root
from tables.texts import DEMO_PLAN, ONE_TEST_PLAN


def not_json(name: str, plan):
    return fault(name, "run --workers 2", plan, "plan is not JSON")


def root_not_json(name: str, members: str):
    return not_json(name, rooted(members))


def wrong_node(members: str, path: str):
    """The member at this path is bad where the root has these members."""
    return wrong(plan_of("{" + members + "}"), path)


def wrong_of_version_2(members: str, path: str):
    """The root's member at this path is bad in a plan of version 2."""
    return fault(f"plan member/version 2, {members}", "run", plan_of("{" + NODE + members + "}", "2"), f"plan member {path} is bad")


CASES = rows(__file__, globals())
