"""A tree of links with faults in plain Python, from the rules in docs/PROTOCOL.md: the expected
values of tests of `stab_treecore`, and of rows of tests/tables, are its values, and nothing of it
is made from the crates."""

class Link:
    def __init__(s, capacity, labels, frames=(), acks=(), send=0, recv=65535):
        s.capacity, s.labels = capacity, labels
        s.offered, s.acked, s.delivered, s.closed = [], 0, [], False
        s.strike(frames, acks, send, recv)

    def strike(s, frames, acks, send, recv):
        """The queues and labels become these; an item that the sender holds stays."""
        assert len(frames) <= s.capacity and len(acks) <= s.capacity
        s.frames, s.acks, s.send, s.recv = list(frames), list(acks), send, recv

    def holds(s):
        return len(s.offered) == s.acked + 1

    def act(s, act, above, place=0):
        """One act, and its effect: offers come from the list above. After a close only faults
        change anything."""
        queue = s.frames if 'frame' in act else s.acks
        if s.closed:
            return 'Nothing'
        if act == 'close':
            s.closed = True
            return 'Closed'
        if act == 'offer':
            if s.holds() or len(s.offered) == len(above):
                return 'Nothing'
            s.offered.append(above[len(s.offered)])
            return 'Held'
        if act.startswith('send'):
            if act == 'send_frame' and not s.holds():
                return 'Nothing'
            if len(queue) == s.capacity:
                return 'Lost'
            queue.append(s.recv if act == 'send_ack' else (s.send, s.offered[s.acked]))
            return 'Sent'
        if act.startswith('lose'):
            found = len(queue)
            del queue[place:place + 1]
            return 'Lost' if place < found else 'Nothing'
        if not queue:
            return 'Nothing'
        front = queue[0] if act.endswith('keep') else queue.pop(0)
        if act.startswith('recv_ack'):
            if not s.holds() or front != s.send:
                return 'Ignored'
            s.acked += 1
            s.send = s.send + 1 if s.send + 1 < s.labels else 0
            return 'Acked'
        if front[0] == s.recv:
            return 'Old'
        s.recv = front[0]
        s.delivered.append(front[1])
        return 'Fresh'

    def take(s, event):
        """An event of a link job, and its effect."""
        act, number = (event, 0) if isinstance(event, str) else event
        return s.act(act, [*s.offered, number], number)

class Tree:
    def __init__(s, parents, links, published):
        """A node's parent is the place of it, and None at the root; links are by child."""
        s.parents, s.links, s.published = parents, links, list(published)
        s.openings = [[] for _ in parents]

    def list_of(s, node):
        return s.openings[node] + s.links[node].delivered if s.links[node] else s.published

    def act(s, child, act, place=0):
        return s.links[child].act(act, s.list_of(s.parents[child]), place)

    def restart(s, node, items):
        """The node's list becomes these, and its senders begin anew."""
        if s.links[node]:
            s.openings[node], s.links[node].delivered = list(items), []
        else:
            s.published = list(items)
        for child, parent in enumerate(s.parents):
            if parent == node:
                s.links[child].offered, s.links[child].acked = [], 0

    def path(s, node):
        """The node and all nodes above it but the root, from the node up."""
        while s.parents[node] is not None:
            yield node
            node = s.parents[node]

    def backlog(s, child):
        link, above = s.links[child], s.list_of(s.parents[child])
        return link.offered[link.acked:] + above[len(link.offered):]

class Count:
    """What is counted of each node from a moment on."""
    def __init__(s, tree):
        s.had = [len(tree.list_of(n)) for n in range(len(tree.parents))]
        inner = [n for n in range(len(tree.parents)) if tree.parents[n] is not None]
        s.backlog = {n: list(tree.backlog(n)) for n in inner}

    def of(s, tree, node):
        """Its bounds on strays and missing items, what is published for it, what it received."""
        way = list(tree.path(node))
        strays = sum(tree.links[n].capacity for n in way)
        strays += sum(len(s.backlog[n]) for n in way[:-1])
        missing = sum(2 * tree.links[n].capacity + 1 for n in way)
        had = s.had[tree.parents.index(None)]
        return (strays, missing, s.backlog[way[-1]] + tree.published[had:],
                tree.list_of(node)[s.had[node]:])

ROUND = ['offer', 'send_frame', 'recv_frame', 'send_ack', 'recv_ack']
ACTS = ROUND * 4 + ['recv_frame_keep', 'recv_ack_keep', 'lose_frame', 'lose_ack']

def reading_round(capacity):
    """Each end takes all that can be queued before it sends."""
    return (['offer'] + ['recv_frame'] * capacity + ['send_frame', 'recv_frame']
            + ['recv_ack'] * capacity + ['send_ack', 'recv_ack'])
