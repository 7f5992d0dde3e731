"""The texts of the programs report, explain and couple."""

_TYPES, _KINDS, _PERIODS = "GKH", "SL", ("day", "evening", "night")


def report(book, limits):
    """A line a point: its level and its limit, the verdict, and the movements computed and without levels."""
    lines = ["point,level,limit,verdict,computed,missing"]
    for point, limit in enumerate(limits.limits):
        load = book.load(point, limits.days)
        level = "below" if load.level is None else _spelled(load.level)
        verdict = "over" if book.verdict(point, limits.days, limit) else "within"
        lines.append(f"{point + 1},{level},{_spelled(limit)},{verdict},{sum(load.computed)},{sum(load.missing)}")
    return _text(lines)


def explain(book, limits):
    """How the load at each point comes about: a line for each group that has a movement, and one for all."""
    lines = ["point,type,kind,period,computed,missing,factor,energy,counted"]
    for point in range(len(limits.limits)):
        lines += explained(point + 1, book.account(point, limits.days))
    return _text(lines)


def coupled(movements, tracks, places):
    """A line a movement: its id and the number of its radar track, blank where it takes none."""
    numbers = ("" if place is None else tracks[place].track for place in places)
    return _text(["id,track", *(f"{movement.id},{number}" for movement, number in zip(movements, numbers))])


def counted(movements, tracks, places):
    """How many movements have a track, why the others have none, and how many tracks are left."""
    found = sum(place is not None for place in places)
    circuits = sum(movement.class_ == 0 and movement.circuit for movement in movements)
    none = f"{circuits} aeroplane circuits take none, {len(movements) - found - circuits} found none"
    return f"movements: {found} of {len(movements)} have a track, {none}; tracks left: {len(tracks) - found}"


def explained(point, account):
    """The lines of one point, counted from 1."""
    for number, (computed, missing, energy, counted) in enumerate(account.groups):
        if computed + missing:
            name = f"{_TYPES[number // 6]},{_KINDS[number // 3 % 2]},{_PERIODS[number % 3]}"
            factor = f"{computed + missing}/{computed}" if computed else ""
            yield f"{point},{name},{computed},{missing},{factor},{energy},{counted}"
    computed, missing = (sum(group[place] for group in account.groups) for place in (0, 1))
    factor = "{}/{}".format(*account.factor) if account.factor else ""
    yield f"{point},all,,,{computed},{missing},{factor},{account.energy},{account.total}"


def _spelled(level):
    return f"{level // 100}.{level % 100:02}"


def _text(lines):
    return "".join(line + "\r\n" for line in lines)
