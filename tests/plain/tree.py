"""The tree of source 001 in the cells of an index, as document 01 and card 6 of document 02 have it: which grant is in which cell, and below which
others. It shares nothing with the product: there are no words here, and no node knows its parent."""

AXES = 7
TOP = 65535
CELLS = 2048


def point(g):
    """The three froms, the three tos, the number."""
    return [ends[0] for ends in g.box] + [ends[1] for ends in g.box] + [g.number]


class Node:
    def __init__(self, cell, grant):
        self.cell, self.grant, self.children = cell, grant, [None, None]


class Tree:
    """The root's link, as a list of one, and the free cells, the next one last."""

    def __init__(self):
        self.root = [None]
        self.free = list(range(CELLS, 0, -1))

    def grant(self, grant):
        """Down by the half that holds the point, one axis after the other, to the first link that leads nowhere."""
        at, halves = point(grant), [(0, TOP)] * AXES
        links, side, level = self.root, 0, 0
        while links[side]:
            axis = level % AXES
            low, high = halves[axis]
            middle = (low + high) // 2
            links, side = links[side].children, int(middle < at[axis])
            halves[axis] = (middle + 1, high) if side else (low, middle)
            level += 1
        links[side] = Node(self.free.pop(), grant)

    def revoke(self, number):
        """From the unwanted node left, else right, to a terminal one, which takes its place."""
        links, side = self.links(number)[-1]
        gone = links[side]
        last, end = links, side
        while any(last[end].children):
            last = last[end].children
            end = 0 if last[0] else 1
        leaf = last[end]
        last[end] = None
        if leaf is not gone:
            leaf.children = gone.children
            links[side] = leaf
        self.free.append(gone.cell)

    def links(self, number):
        """The links from the root's down to the one that leads to the grant of this number; none where there is no such grant."""
        def below(links):
            for side, node in enumerate(links):
                if node and node.grant.number == number:
                    return [(links, side)]
                found = below(node.children) if node else []
                if found:
                    return [(links, side)] + found
            return []

        return below(self.root)

    def way_up(self, number):
        """The nodes from the grant's own up to the root, each with its level."""
        down = [links[side] for links, side in self.links(number)]
        return list(reversed(list(enumerate(down))))
