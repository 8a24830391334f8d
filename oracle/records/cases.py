"""Prints the cases for the record: calls of its setters, `S name value`, joined by ' ; ', made in order on one fresh record."""
import random

I32, I64 = 2**31, 2**63
# for each setter the least and the greatest value that it takes, and two values between
SETTERS = {
    "year": (-I32, I32 - 1, 2014, 1987),
    "year_div_100": (0, I32 - 1, 20, 19),
    "year_mod_100": (0, 99, 14, 87),
    "isoyear": (-I32, I32 - 1, 2015, 1988),
    "isoyear_div_100": (0, I32 - 1, 21, 18),
    "isoyear_mod_100": (0, 99, 15, 88),
    "quarter": (1, 4, 3, 2),
    "month": (1, 12, 9, 8),
    "week_from_sun": (0, 53, 35, 36),
    "week_from_mon": (0, 53, 37, 34),
    "isoweek": (1, 53, 38, 33),
    "weekday": (0, 6, 4, 5),
    "ordinal": (1, 366, 245, 107),
    "day": (1, 31, 26, 17),
    "ampm": (0, 1, 1, 0),
    "hour12": (1, 12, 10, 7),
    "hour": (0, 23, 22, 6),
    "minute": (0, 59, 41, 52),
    "second": (0, 60, 43, 54),
    "nanosecond": (0, 999999999, 123456789, 500000000),
    "timestamp": (-I64, I64 - 1, 1409993999, -62135596800),
    "offset": (-I32, I32 - 1, 34200, -18000),
}
LIMITS = sorted({s * b + d for s in (-1, 1) for b in (I32, 2 * I32, I64) for d in (-2, -1, 0, 1)} | {-2, -1, 0, 1, 2})

seen = set()


def case(*calls):
    row = " ; ".join(f"S {name} {value}" for name, value in calls)
    if row not in seen and all(-I64 <= value < I64 for _, value in calls):
        seen.add(row)
        print(row)


def limits():
    for name, (low, high, a, b) in SETTERS.items():
        for value in (low - 1, low, low + 1, high - 1, high, high + 1, a, b, *LIMITS):
            case((name, value))
        for turn in (2**8, 2**16, 2 * I32, 2**33, I64):
            for value in (low, high, a):
                case((name, value + turn))
                case((name, value - turn))


def again():
    for name, (low, high, a, b) in SETTERS.items():
        good = (low, high, a, b)
        bad = (low - 1, high + 1, a + 2 * I32, a - 2 * I32, I64 - 1, -I64)
        for x in good:
            for y in good:
                case((name, x), (name, y))
            case((name, x), (name, x), (name, x))
        for x in (a, b):
            for y in bad:
                case((name, y), (name, x))
                case((name, x), (name, y))
        case((name, a), (name, b), (name, a), (name, b))
        case((name, a), (name, high + 1), (name, low - 1), (name, a))
        case((name, high + 1), (name, low - 1))


def hours():
    values = {"hour": range(-1, 25), "hour12": range(0, 14), "ampm": range(-1, 3)}
    for one in values:
        for two in values:
            if one != two:
                for x in values[one]:
                    for y in values[two]:
                        case((one, x), (two, y))
    for x in (0, 1, 5, 11, 12, 13, 17, 23):
        for y in (0, 1, 5, 11, 12, 13, 17, 23):
            case(("hour", x), ("hour", y))
    for hour in (0, 5, 11, 12, 17, 23):
        for hour12 in (1, 5, 11, 12):
            for ampm in (0, 1):
                # what a refused hour left is then confirmed, or contradicted
                case(("hour12", hour12), ("hour", hour), ("ampm", ampm))
                case(("ampm", ampm), ("hour", hour), ("hour12", hour12))
                case(("ampm", ampm), ("hour12", hour12), ("hour", hour))


def pairs():
    for one, (low, high, a, b) in SETTERS.items():
        for two, (least, most, c, d) in SETTERS.items():
            case((one, a), (two, d))
            case((one, high), (two, least))
    names = list(SETTERS)
    for at in range(4):
        every = [(name, SETTERS[name][at]) for name in names]
        case(*every)
        case(*reversed(every))
        case(*every, *every)
        case(*every, *((name, SETTERS[name][(at + 1) % 4]) for name in names))


def mixed(total):
    rng = random.Random(2822)
    names, clock = list(SETTERS), ["ampm", "hour12", "hour"]

    def value(name):
        low, high, a, b = SETTERS[name]
        kind = rng.randrange(10)
        if kind < 4:
            return rng.choice((low, high, a, b))
        if kind < 6:
            return rng.randint(low, high)
        if kind < 8:
            return rng.choice((low, high)) + rng.choice((-1, 0, 1))
        return rng.choice((rng.choice(LIMITS), rng.choice((low, high, a, b)) + rng.choice((-2, -1, 1, 2)) * 2 * I32, rng.randrange(-I64, I64)))

    while len(seen) < total:
        some = clock if rng.randrange(4) == 0 else rng.sample(names, rng.randint(1, 4))
        calls = []
        for _ in range(rng.randint(2, 6)):
            if calls and rng.randrange(4) == 0:
                calls.append(rng.choice(calls))
            else:
                name = rng.choice(some)
                calls.append((name, value(name)))
        case(*calls)


limits()
again()
hours()
pairs()
mixed(6500)
