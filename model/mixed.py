"""Lines of mixed calls by a fixed rule: the same number gives the same lines. For the benchmark (bench/lines) and the comparison (model/compare)."""

PAGE = 4096


class Numbers:
    """A linear congruential generator."""

    def __init__(self, seed):
        self.x = seed

    def below(self, n):
        self.x = (self.x * 6364136223846793005 + 1442695040888963407) % 2 ** 64
        return (self.x >> 33) % n


def offset_of(g):
    """A place in the first 24 pages, often a page's edge."""
    return g.below(24) * PAGE + (0, 0, 1, PAGE - 3, g.below(PAGE))[g.below(5)]


def length_of(g):
    return (0, 1, PAGE - 1, PAGE, PAGE + 1, 3 * PAGE, 8 * PAGE, g.below(3 * PAGE))[g.below(8)]


def one(g):
    name, other = g.below(5), g.below(5)
    kind = g.below(40)
    if kind < 3:
        return '%02X%02X' % ((1, 1, 1, 2)[g.below(4)], g.below(6))
    if kind < 10:
        return '03%02X%08X%s' % (name, offset_of(g), '%02X' % g.below(256) * g.below(12))
    if kind < 17:
        return '04%02X%08X%02X' % (name, offset_of(g), g.below(40))
    if kind < 20:
        return '05%02X%08X' % (name, g.below(60))
    if kind < 25:
        return '06%02X%08X' % (name, g.below(60))
    if kind < 30:
        at, length = offset_of(g), length_of(g)
        to = g.below(24) * PAGE + (at % PAGE if g.below(4) else g.below(PAGE))
        return '07%02X%08X%02X%08X%08X' % (name, at, other, to, length)
    if kind < 33:
        return '08%02X%08X%02X%08X%08X' % (name, g.below(24) * PAGE + g.below(9) // 8, other, offset_of(g), g.below(9) * PAGE)
    if kind < 37:
        return '09%02X%08X%08X' % (name, offset_of(g), length_of(g))
    if kind < 39:
        return '0a'
    return ('', '0', '0B', '01 00', '0100FF', '04%02X%08X01' % (name, 0x40000000), '05%02X%08X' % (name, 262144 + g.below(2)), '08000000000101000000000000')[g.below(8)]


def lines(n, seed=1):
    g = Numbers(seed)
    return ''.join(one(g) + '\n' for _ in range(n)).encode()


def reach():
    """A range taken along until its indexes end: it is made longer by 15 pages, its front is zeroed, and at the end of the object it goes on in another by a shadow copy.
    The last page added starts a range, since "no range is extended past offset + length 1,048,576"."""
    said, here, index, page = ['0100', '0101', '050000000000'], 0, 0, 0
    while index < 1048575:
        if page + 15 > 262143:
            there = 1 - here
            said += ['08%02X%08X%02X%08X%08X' % (here, page * PAGE, there, 0, PAGE), '02%02X' % here, '01%02X' % here]
            here, page = there, 0
        step = min(15, 1048575 - index)
        said += ['05%02X%08X' % (here, page + step), '09%02X%08X%08X' % (here, page * PAGE, step * PAGE)]
        page, index = page + step, index + step
    said += ['0A', '05%02X%08X' % (here, page + 1), '0A', '06%02X%08X' % (here, page), '06%02X%08X' % (here, page + 1)]
    return ''.join(x + '\n' for x in said).encode()
