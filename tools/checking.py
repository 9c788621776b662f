"""A reference check of plans, written from the rules alone: slow and plain.

A plan is (places, legs, carriers): `legs` is a set of (from, to), and a carrier
is (start, goal, path).
"""


def check_line(plan):
    """The line that the program prints for the check of a plan."""
    values = breach(plan) or circular_wait(plan)
    if values:
        return " ".join(map(str, ("check refused", *values)))
    return f"check released {sum(len(path) - 1 for _, _, path in plan[2])}"


def breach(plan):
    """Number and values of the first rule of 11 to 16 that is broken."""
    _, legs, carriers = plan
    numbered = list(enumerate(carriers))
    for c, (_, _, path) in numbered:
        if not path:
            return 11, c
    for c, (start, goal, path) in numbered:
        if path[0] != start:
            return 12, c, 0
        if path[-1] != goal:
            return 12, c, len(path) - 1
    for c, (_, _, path) in numbered:
        for t in range(1, len(path)):
            if (path[t - 1], path[t]) not in legs:
                return 13, c, t
    for number, end in ((14, 0), (15, 1)):
        for c, one in numbered:
            for d, other in numbered[c + 1:]:
                if one[end] == other[end]:
                    return number, c, d
    for c, (_, _, path) in numbered:
        for t in range(1, len(path)):
            for d, (_, goal, _) in numbered:
                if d != c and path[t] == goal:
                    return 16, c, t, d
    return None


def circular_wait(plan):
    """17, the number of pairs and the pairs of the circular wait that is named."""
    legs = kept([(c, t, path[t], path[t + 1])
                 for c, (_, _, path) in enumerate(plan[2])
                 for t in range(len(path) - 1)])
    for size in range(2, len(plan[2]) + 1):
        for first in legs:
            behind = [leg for leg in legs if leg[0] > first[0]]
            rest = chain(behind, distances(behind, first[2]), first[3],
                         first[2], size - 1, {first[0]})
            if rest is not None:
                pairs = [first] + rest
                return 17, size, *(n for leg in pairs for n in leg[:2])
    return None


def kept(legs):
    """The legs without those that no other carrier's leg leads to or from."""
    while True:
        left = [leg for leg in legs
                if any(o[0] != leg[0] and o[2] == leg[3] for o in legs)
                and any(o[0] != leg[0] and o[3] == leg[2] for o in legs)]
        if left == legs:
            return legs
        legs = left


def distances(legs, home):
    """How many legs lead home at least, from each place from which any do."""
    far = {home: 0}
    reached = [home]
    for place in reached:
        for _, _, begin, end in legs:
            if end == place and begin not in far:
                far[begin] = far[place] + 1
                reached.append(begin)
    return far


def chain(legs, far, place, home, size, used):
    """The first chain of so many legs of other carriers, from place to home."""
    if size == 0:
        return [] if place == home else None
    if far.get(place, size + 1) > size:
        return None
    for leg in legs:
        if leg[2] == place and leg[0] not in used:
            rest = chain(legs, far, leg[3], home, size - 1, used | {leg[0]})
            if rest is not None:
                return [leg] + rest
    return None
