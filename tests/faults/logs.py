"""A plain judge of logs, from its definition in man/rignolda.1, by the tree law of
agents/check_report.py. And all lists that a link of capacity 1 can deliver, by a search through all
states of the link of reference.py. It shares nothing with the program."""
import copy
import functools

from check_report import is_subsequence, most_missing, obeys_tree_law
from faults.reference import ACTS, Link
from tables.reader import line


def strays_of(tree, hold, node):
    """How many strays the link into a node may bring: c, and what its parent may have had for it
    that are no published items, c + h."""
    return tree.links[node].capacity + hold * (tree.parents[tree.parents[node]] is not None)


def follows(received, above, strays):
    """Whether a list is strays and then items of the one above it."""
    return any(is_subsequence(received[count:], above)
               for count in range(min(strays, len(received)) + 1))


def text_of(names, tree, hold, items, received, places):
    """What is said of logs."""
    for node, name in enumerate(names):
        way, parent = list(tree.path(node)), tree.parents[node]
        strays = sum(strays_of(tree, hold, it) for it in way)
        without, most = most_missing([tree.links[it].capacity for it in way])
        counted = items[places[node]:] if places else items
        lists = line("published", *counted) + line("received", *received[node])
        if not follows(received[node], counted, strays):
            return (f"{name}: it received more strays than C + E = {strays}, or published items "
                    f"out of order or twice\n{lists}")
        if not obeys_tree_law(strays, without, most, counted, received[node]):
            return (f"{name}: published items before its last one are missing, not only among the "
                    f"first {without} and one more for each stray, at most the first {most}\n"
                    f"{lists}")
        if parent is None or tree.parents[parent] is None:
            continue
        strays = strays_of(tree, hold, node)
        if not follows(received[node], received[parent], strays):
            return (f"{name}: it received more strays than c + h = {strays}, or its parent's items "
                    f"out of order or twice\n" + line("parent received", *received[parent])
                    + line("received", *received[node]))
    return "obeys\n"


@functools.lru_cache(None)
def delivered(count):
    """All lists that a link of capacity 1 with 4 labels can deliver, whatever it begins with, if
    its node has so many items: places of these, and None for a stray. Each act may come at any
    time."""
    found = {}
    after = [Link(1, 4, frames, acks, 0, told) for told in range(4)
             for frames in [[], *([(label, None)] for label in range(4))]
             for acks in [[], *([label] for label in range(4))]]
    while after:
        link = after.pop()
        if found.setdefault(repr(vars(link)), link) is link:
            for act in {*ACTS}:
                after.append(copy.deepcopy(link))
                after[-1].act(act, range(count))
    return {tuple(link.delivered) for link in found.values()}
