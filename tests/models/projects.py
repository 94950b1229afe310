"""Projects of dependency tables."""

import urllib.parse

from models.refused import Refused

PARTIES = ("root", "first", "third")
KINDS = ("normal", "build", "dev")
HEADER = "what,n,p,q,r"


class Project:
    """Nodes with their parties, and edges, by name and version."""

    def __init__(self, parties, edges):
        self.parties = dict(sorted(parties.items()))
        self.edges = sorted(edges, key=lambda edge: (*edge[:2], KINDS.index(edge[2])))

    def lines(self):
        nodes = [f"node {' '.join(node)} {party}" for node, party in self.parties.items()]
        return nodes + [f"edge {' '.join(origin)} {' '.join(target)} {kind}" for origin, target, kind in self.edges]


def read_project(table):
    """The project of a table in which each node has a good name and version."""
    nodes, parties, edges = [], {}, []
    for number, record in enumerate(table.split("\n")[1:-1], 2):
        what, first, second, third, last = record.split(",")
        if what == "edge":
            edges.append((int(first), int(second), third, number))
            continue
        node = (second, third)
        if node in parties:
            two = (parties[node] == "third") != (last == "third")
            raise Refused(f"17 TwoParties {number}" if two else f"27 CsvRefused {number}")
        parties[node] = last
        nodes.append(node)
    for origin, target, _, number in edges:
        if max(origin, target) >= len(nodes):
            raise Refused(f"16 UnknownNode {number}")
    return Project(parties, {(nodes[origin], nodes[target], kind) for origin, target, kind, _ in edges})


def table_of(*versions, kind="normal", package="serde"):
    """A dependency table by which a root demands these versions of a package."""
    lines = [HEADER, "node,0,app,0.1.0,root"]
    lines += [f"node,{at},{package},{version},third" for at, version in enumerate(versions, 1)]
    lines += [f"edge,0,{at},{kind}," for at, _ in enumerate(versions, 1)]
    return "".join(f"{line}\n" for line in lines)


def word_of_table(lines):
    """The word of the table of these lines behind the header."""
    return urllib.parse.quote("\n".join([HEADER, *lines, ""]), safe=",")
