"""Call graphs: for each function its calls, as triples of whom, where, and a weight."""


class Fault(Exception):
    """What is wrong, and where."""


def reached(graph, roots):
    found, todo = set(), list(roots)
    while todo:
        key = todo.pop()
        if key not in found:
            found.add(key)
            todo += [callee for callee, _, _ in graph[key]]
    return found


def ring(graph, key):
    """The shortest chain of calls from a function back to itself, as triples of who, whom and where; None if there is none."""
    came, todo = {}, [key]
    for caller in todo:
        for callee, place, _ in graph[caller]:
            if callee not in came:
                came[callee] = (caller, callee, place)
                todo.append(callee)
    chain = []
    while key in came and (not chain or chain[0][0] != key):
        chain.insert(0, came[chain[0][0] if chain else key])
    return chain or None


def fail_at_rings(graph, found):
    """Fails if a function of these calls itself, with a chain for each that does."""
    said, lines = set(), []
    for key in sorted(found):
        chain = None if key in said else ring(graph, key)
        if chain:
            said |= {who for who, _, _ in chain}
            lines.append("cycle: " + " -> ".join([who for who, _, _ in chain] + [key]))
            lines += ["    %s: `%s` calls `%s`" % (place, who, whom) for who, whom, place in chain]
    if lines:
        raise Fault("\n".join(lines))


def order(graph, roots):
    """The functions reached, each before those that it calls; there is no cycle."""
    done, out, todo = set(), [], [(root, False) for root in roots]
    while todo:
        key, left = todo.pop()
        if left:
            out.append(key)
        elif key not in done:
            done.add(key)
            todo.append((key, True))
            todo += [(callee, False) for callee, _, _ in graph[key]]
    return out[::-1]


def heaviest(graph, roots, own):
    """For each function the greatest weight of a chain of calls from it, and the chain."""
    best = {}
    for key in reversed(order(graph, roots)):
        ways = [(weight + best[callee][0], [key] + best[callee][1]) for callee, _, weight in graph[key]]
        best[key] = max([(own(key), [key])] + ways)
    return best


def depths(graph, roots):
    """For each function the most calls on a chain from a root to it."""
    deep = {}
    for key in order(graph, roots):
        deep.setdefault(key, 0)
        for callee, _, _ in graph[key]:
            deep[callee] = max(deep.get(callee, 0), deep[key] + 1)
    return deep
