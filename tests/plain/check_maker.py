"""What the words of `check` ask for in a case: a feed with problems, or one that is poor, and options in each combination."""
from aims import aim
from case_parts import folder_word, put, put_feed, service_day
from mending import mend
from neglect import neglect

# The last day of service is often so far from the one that is asked about.
OFFSETS = [-30, -7, -6, -6, -5, -5, -1, 0, 0, 1]


def make_poor(random, made, number):
    """Changes that aim at advice, or at none, in a feed that is at times without any before."""
    if number % 2 == 0:
        mend(made)
    if random.random() < 0.9:
        neglect(random, made, number, 4)


def put_check_feed(random, number):
    """A feed: in turn as other commands have it, and with changes that aim at problems, at advice, and at problems again."""
    form = number % 4
    if form == 0:
        return put_feed(random, "f", random.choice([0, 1, 1, 2, 3, 5]))
    if form == 2:
        return put_feed(random, "f", 0, lambda random, made: make_poor(random, made, number // 4))
    oddities = random.choice([0, 1, 1, 2, 3, 5])
    return put_feed(random, "f", oddities, lambda random, made: aim(random, made, number // 2, 5))


def options(random, made, is_poor):
    """Options and their texts."""
    given = {name: "" for name in ("values", "summary") if random.random() < 0.4}
    if random.random() < (0.85 if is_poor else 0.4):
        given["advise"] = ""
    if random.random() < (0.6 if "advise" in given else 0.06):
        given["day"] = service_day(random, made, OFFSETS)
    return given


def given_check(random, number):
    made = put_check_feed(random, number)
    put(".", {"z": b""})
    return {"DIR": folder_word(random), **options(random, made, number % 4 == 2)}
