"""Likely copies: submissions that become the same image, or the same control store. Names, comments and spaces make no difference there."""
import collections


def groups_of(digests, known):
    """The groups of labels whose digests are the same, the largest first: (labels, what it is too). A digest in `known` is
    that of a file of the exercise, such as its start."""
    found = collections.defaultdict(list)
    for label, digest in digests:
        if digest:
            found[digest].append(label)
    groups = [(labels, known.get(digest, "")) for digest, labels in found.items() if len(labels) > 1]
    return sorted(groups, key=lambda group: (-len(group[0]), group[0]))


def as_text(groups):
    """A line for each group: how many, what else it is, and the names."""
    return "".join(f"{len(labels)}{' (' + what + ')' if what else ''}: {', '.join(labels)}\n" for labels, what in groups)
