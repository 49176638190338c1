"""How the plans of the tables are written, those that are refused among them."""

from tables.building import fault, stats

CHILD = '{"type":"test","segment":["b","y"],"name":"m"}'
NODE = '"type":"both","segment":["engine","e"],"name":"e"'

ONE_START = stats(started=1, finished=1, succeeded=1) + "[engine:e]\n  start\n  finish|ok\n"


def rooted(members: str) -> str:
    """A plan of a root with these members after its type, segment and name."""
    return '{"version":1,"root":{' + NODE + members.replace("CHILD", CHILD) + "}}"


def plan_of(root: str, version: str = "1") -> str:
    return '{"version":' + version + ',"root":' + root + "}"


def refused(name: str, plan, line: str):
    return fault(f"plan/{name}", "run --workers 2", plan, line)


def wrong(plan: str, path: str):
    """The plan's member at this path is bad."""
    return fault(f"plan member/{plan}", "run", plan, f"plan member {path} is bad")


def wrong_root(members: str, path: str):
    """The root's member at this path is bad."""
    return fault(f"plan member/{members}", "run --workers=2", rooted(members), f"plan member {path} is bad")


def node(kind: str, tag: str, value: str, members: str = "") -> str:
    return f'{{"type":"{kind}","segment":["{tag}","{value}"],"name":"{value}"{members}}}'


def root(members: str) -> str:
    """A plan of a container with these members."""
    return plan_of(node("container", "engine", "e", members))


def children(*nodes: str) -> str:
    return ',"children":[' + ",".join(nodes) + "]"


def dynamic(*nodes: str) -> str:
    return ',"dynamic":[' + ",".join(nodes) + "]"
