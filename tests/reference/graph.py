"""Pieces by name, and which names use which: what contains itself, weights, depths, shapes (docs/expansion.md).

A node is a full name, or None for the unnamed program.
"""
import limits
from output import item_text

PROGRAM = None
TEXTS = ('Word', 'Sign', 'Quoted', 'Verbatim', 'Code')


class Graph:
    def __init__(self, web, names):
        self.names = names
        self.nodes = names.full_names + [PROGRAM]
        self.by_number = [PROGRAM] + names.full_names     # the order of users, and so of affected nodes
        self.pieces = {node: [] for node in self.nodes}
        for piece in web.pieces:
            if piece.occurrence is None:
                self.pieces[PROGRAM].append(piece)
            elif names.resolved[piece.occurrence] is not None:
                self.pieces[names.resolved[piece.occurrence]].append(piece)
        self.uses = {node: list(dict.fromkeys(self._used(node))) for node in self.nodes}
        self.users = {node: [] for node in self.nodes}
        for node in self.by_number:
            for used in self.uses[node]:
                self.users[used].append(node)
        self._find_cycles()
        self.weight, self.depth = {}, {}
        for node in self.used_first:
            self._measure(node)
        self.expandable = {node for node in self.nodes if self.pieces[node] and self.weight[node] <= limits.WEIGHT
                           and self.depth[node] <= limits.DEPTH}

    def use(self, item):
        """The name that a use represents, where it is resolved."""
        return self.names.resolved[item.value]

    def _used(self, node):
        for piece in self.pieces[node]:
            for item in piece.items:
                if item.kind == 'UseOf' and self.use(item) is not None:
                    yield self.use(item)

    def _find_cycles(self):
        """Tarjan's strong components, without recursion; the nodes in an order in which used ones come first."""
        number, low, stack, on_stack = {}, {}, [], set()
        self.self_containing, self.used_first = set(), []
        for root in self.nodes:
            walk = [] if root in number else [(root, None)]
            while walk:
                node, ahead = walk.pop()
                if ahead is None:
                    number[node] = low[node] = len(number)
                    stack.append(node)
                    on_stack.add(node)
                    ahead = iter(self.uses[node])
                for used in ahead:
                    if used not in number:
                        walk += [(node, ahead), (used, None)]
                        break
                    if used in on_stack:
                        low[node] = min(low[node], low[used])
                else:
                    if low[node] == number[node]:
                        self._close_component(node, stack, on_stack)
                    if walk:
                        low[walk[-1][0]] = min(low[walk[-1][0]], low[node])
        self.reaches_cycle = self.reaching(self.self_containing)

    def _close_component(self, root, stack, on_stack):
        component = [stack.pop()]
        while component[-1] != root:
            component.append(stack.pop())
        on_stack.difference_update(component)
        if len(component) > 1 or root in self.uses[root]:
            self.self_containing.update(component)
        self.used_first += component

    def reaching(self, nodes):
        """The nodes that reach one of these, by using in no step, one step or more."""
        found, ahead = set(nodes), list(nodes)
        while ahead:
            for user in self.users[ahead.pop()]:
                if user not in found:
                    found.add(user)
                    ahead.append(user)
        return found

    def order(self):
        """The nodes that reach no cycle, each after all that it uses: at first those that use no
        name; each in turn then adds those of its users of which all used names are there."""
        missing = {node: len(self.uses[node]) for node in self.nodes}
        found = [node for node in self.by_number if not missing[node]]
        for node in found:                      # which grows meanwhile
            for user in self.users[node]:
                missing[user] -= 1
                if not missing[user]:
                    found.append(user)
        return found

    def _measure(self, node):
        if node in self.reaches_cycle:
            self.weight[node], self.depth[node] = limits.WEIGHT + 1, limits.DEPTH + 1
            return
        weight = sum(3 + sum(map(self._item_weight, piece.items)) for piece in self.pieces[node])
        self.weight[node] = min(weight, limits.WEIGHT + 1)
        depth = 1 + max((self.depth[used] for used in self.uses[node]), default=0) if self.pieces[node] else 0
        self.depth[node] = min(depth, limits.DEPTH + 1)

    def _item_weight(self, item):
        if item.kind in TEXTS:
            return len(item_text(item))
        if item.kind == 'UseOf' and self.use(item) is not None and self.pieces[self.use(item)]:
            return 1 + self.weight[self.use(item)]
        return 1

    def shape(self, node):
        """A node's pieces, each use as the name that it resolves to, without section numbers and places."""
        return [[self._item_shape(item) for item in piece.items] for piece in self.pieces.get(node, [])]

    def _item_shape(self, item):
        if item.kind == 'UseOf':
            return (item.kind, self.use(item))
        return (item.kind, None if item.kind == 'LineMark' else item.value)


def affected(old, new):
    """The nodes that can be expanded in the new graph and reach there a node whose shape was another in the old one."""
    changed = [node for node in new.nodes if new.shape(node) != old.shape(node)]
    return new.reaching(changed) & new.expandable
