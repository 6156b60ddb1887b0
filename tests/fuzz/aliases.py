"""Made modules with ALIAS records: aliases in place of the names that they ask for, and pairs that lead on, in chains and in circles."""
import executables
from changes import records_of
from libraries import record
from modules import ALIAS, EXTERNALS, MOST_ALIASES, name_places

FIXUPS = (0x9C, 0x9D)
# Names that no made module defines, as long as those that they do.
ALIASES = (b"a", b"b", b"c", b"d")


def counted(names):
    return b"".join(bytes([len(it)]) + it for it in names)


def chain(random_, defined):
    """Pairs that lead from one alias through about as many as are followed, in some order."""
    count = random_.randrange(MOST_ALIASES - 2, MOST_ALIASES + 3)
    names = [b"a", *(b"a%d" % number for number in range(1, count)), random_.choice(defined)]
    pairs = [*zip(names, names[1:])]
    random_.shuffle(pairs)
    return pairs


def some_pairs(random_, defined):
    """Pairs of short names: some in chains, some in circles, some of what a module defines, some with two substitutes for an alias."""
    return [(it, random_.choice(defined * 4 + ALIASES)) for it in random_.choices(ALIASES * 3 + defined, k=random_.randrange(1, 6))]


def with_record(random_, module, new):
    """A module with one record more, somewhere after its first one, not between data and their fixups."""
    parts = [bytes(it) for it in records_of(module)[0]]
    at = random_.choice([it for it in range(1, len(parts)) if parts[it][0] not in FIXUPS])
    return b"".join([*parts[:at], new, *parts[at:]])


def asking(random_, module, others):
    """A made module that asks for other names in place of most of its own."""
    made = []
    for one in records_of(module)[0]:
        if one[0] in EXTERNALS:
            names = [bytes(one[3 + begin:3 + end]) for begin, end in name_places(one[0], bytes(one[3:-1]))]
            one = record(one[0], b"".join(counted([random_.choice((it, *others))]) + b"\0" for it in names))
        made.append(bytes(one))
    return b"".join(made)


def aliased(random_, modules):
    """Made modules of which some names are aliases; the pairs are in one of them or in several."""
    defined = executables.NAMES[:len(modules)]
    pairs = (chain if random_.randrange(6) == 0 else some_pairs)(random_, defined)
    made = [asking(random_, it, [alias for alias, _ in pairs if alias in ALIASES] + [*defined]) for it in modules]
    while pairs:
        count, at = random_.randrange(1, len(pairs) + 1), random_.randrange(len(made))
        made[at] = with_record(random_, made[at], record(ALIAS[0], counted(name for pair in pairs[:count] for name in pair)))
        pairs = pairs[count:]
    return made
