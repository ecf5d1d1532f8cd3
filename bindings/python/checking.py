"""What the tests share."""
import pathlib
import sys

HERE = pathlib.Path(__file__).resolve().parent
sys.path[:0] = [str(HERE), str(HERE.parent)]


def raises(error, call, *given, **named):
    try:
        call(*given, **named)
    except error as raised:
        return raised
    raise AssertionError(f"{call} raises no {error}")


def below(nodes, path=()):
    """The paths of the nodes and of all in their blocks."""
    found = {}
    for at, node in enumerate(nodes):
        found[id(node)] = (*path, at)
        found.update(below(node.children or [], (*path, at)))
    return found
