"""The name that is nearest to a word, as docs/FORMATS.md has it."""
import functools


@functools.lru_cache(maxsize=4096)
def edits(one, two):
    """How many edits lead from one word to the other: a letter more, less or another, or two neighbours swapped."""
    table = {(i, j): max(i, j) for i in range(len(one) + 1) for j in range(len(two) + 1) if 0 in (i, j)}
    for i in range(1, len(one) + 1):
        for j in range(1, len(two) + 1):
            other = one[i - 1] != two[j - 1]
            ways = [table[i - 1, j] + 1, table[i, j - 1] + 1, table[i - 1, j - 1] + other]
            if i > 1 and j > 1 and other and one[i - 2 : i] == two[j - 1] + two[j - 2]:
                ways.append(table[i - 2, j - 2] + 1)
            table[i, j] = min(ways)
    return table[len(one), len(two)]


def nearest(word, names):
    """The first of the names to which the fewest edits lead, if these are few enough, or None."""
    size = len(word.encode())
    most = min(size - 1, max(size, 3) // 3) if size <= 24 else -1
    found = min(names, key=lambda name: edits(word, name), default=None) if most >= 0 else None
    return found if found is not None and edits(word, found) <= most else None
