"""Plain data as nodes, and back."""
from __future__ import annotations

from typing import Any, Dict, List, Sequence

from ._data import Node

_SCALARS = (str, bool, int, float, type(None))
#: The name of a node that is an item of a list.
_ITEM = "-"


def nodes_of(data: Dict[str, Any], at: str = "") -> List[Node]:
    """Returns the nodes of the items of a dict. `at` is the place of the dict, for messages."""
    nodes = []
    for key, value in data.items():
        if not isinstance(key, str):
            raise TypeError(f"at {at or '/'}: a key is a str, not {type(key).__name__}")
        place = f"{at}/{key}" if at else key
        if key == _ITEM:
            raise ValueError(f"at {place}: the name - is that of the items of a list")
        nodes.append(_node_of(key, value, place))
    return nodes


def _node_of(name: str, value: Any, at: str) -> Node:
    if isinstance(value, _SCALARS):
        return Node(name, [value])
    if isinstance(value, dict):
        return Node(name, children=nodes_of(value, at))
    if not isinstance(value, list):
        kind = type(value).__name__
        raise TypeError(f"at {at}: {kind} is not None, bool, int, float, str, list or dict")
    if len(value) != 1 and all(isinstance(it, _SCALARS) for it in value):
        return Node(name, value)
    items = [_node_of(_ITEM, it, f"{at}[{index}]") for index, it in enumerate(value)]
    return Node(name, children=items)


def data_of(nodes: Sequence[Node], at: str = "") -> Dict[str, Any]:
    """Returns the dict of which `nodes_of` makes the nodes."""
    data: Dict[str, Any] = {}
    for node in nodes:
        place = f"{at}/{node.name}" if at else node.name
        if node.name in data or node.name == _ITEM:
            raise ValueError(f"no plain data: two nodes {place}" if node.name in data
                             else f"no plain data: a node - at {at or '/'}")
        data[node.name] = value_of_node(node, place)
    return data


def value_of_node(node: Node, at: str = "") -> Any:
    """Returns the value of which `nodes_of` makes a node of that name."""
    at = at or node.name
    if node.type is not None or any(it.type is not None for it in node.entries):
        raise ValueError(f"no plain data: a type at {at}")
    if any(it.name is not None for it in node.entries):
        raise ValueError(f"no plain data: a property at {at}")
    values = [it.value for it in node.entries]
    if node.children is None:
        return values[0] if len(values) == 1 else values
    if values:
        raise ValueError(f"no plain data: arguments and a block at {at}")
    if node.children and all(it.name == _ITEM for it in node.children):
        return [value_of_node(it, f"{at}[{index}]") for index, it in enumerate(node.children)]
    return data_of(node.children, at)
