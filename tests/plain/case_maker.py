"""Cases: a folder with feeds and zone files, and words. Each is made from its name alone."""
import copy
import datetime
from dataclasses import replace
from random import Random

from asked_values import moment_of
from boards import Key, departures
from case_parts import folder_word, put, put_feed, put_zones, service_day
from check_maker import given_check
from commands import Ended, feed, zone_of
from feed_maker import file_bytes
from filling import interpolated
from hostile import change_case
from oddities import DIFFERENCES, MOVES, change
from serving import LONGEST
from values import FIRST_SERVICE_DAY, LAST_SERVICE_DAY, Form, Range, date_text
from words import COMMANDS
from zones import DAY, Odd, midnight

# ---- values of options

ODD_MOMENTS = [
    "@", "", "@01", "@-0", "@-1", "@1e3", "20240230", "99990101", "18991231", "2024041", "@1000000000000", " 20240401",
    "19000101", "99981231",
]
ODD_KEYS = [
    "", "@", "@0", "x", "@0/T1/0/1", "@0//0/1/20240401", "@0/T1/00/1/20240401", "@0/T1/0/1/20240230",
    "@-0/T1/0/1/20240401", "@0/T1/3600000/1/20240401", "@0/T1/0/2147483648/20240401", "@5/a/b/c/0/1/99991231",
]

ODD_REQUESTS = ["latin", "latin", "none", "f", "f/", "z/", "", "requests/", "requests/r", "no/r", "r\t"]

# How long a span is, in seconds, for most draws.
LENGTHS = [0, 1, 3600, *(days * DAY for days in range(1, 8)), 40 * DAY]


def near(random, made):
    """An instant near the days of a feed."""
    return midnight(made.base) + random.randint(-3 * DAY, 2 * DAY)


def moment(random, made):
    form = random.random()
    if form < 0.45:
        return date_text(made.base)
    if form < 0.97:
        return f"@{near(random, made)}"
    return random.choice(ODD_MOMENTS)


def later(random, text):
    """A moment after another one, for most draws."""
    try:
        return f"@{start_of(text) + random.choice(LENGTHS)}"
    except (Form, Range):
        return text


def start_of(text):
    """The instant of a moment, a service day's in UTC."""
    moment = moment_of(text)
    return moment if isinstance(moment, int) else midnight(moment)


def odd_key(random):
    return random.choice(ODD_KEYS)


def beside(random, key):
    """A key of which one part is another one, next to that of a departure or far from it."""
    part = random.choice(["instant", "trip", "run", "sequence", "sequence", "date"])
    others = {
        "instant": [key.instant - 1, key.instant + 1],
        "trip": ["", key.trip[:-1], key.trip + "/", key.trip + "0", key.trip.lower(), "T11", "Z"],
        "run": [0, max(0, key.run - 1), min(3_599_999, key.run + 1), 3_599_999],
        "sequence": [0, max(0, key.sequence - 1), min(2_147_483_647, key.sequence + 1), 2_147_483_647],
        "date": [FIRST_SERVICE_DAY, key.date - datetime.timedelta(1), key.date + datetime.timedelta(1), LAST_SERVICE_DAY],
    }
    return replace(key, **{part: random.choice(others[part])})


def key_near(random, zone, stop, begin):
    """The key of a departure of the board with its times filled in, or one beside it."""
    try:
        start = start_of(begin)
        keys = [found[0] for found in departures(interpolated(feed("f")), zone_of(zone), stop, start - DAY, start + 3 * DAY)]
    except (Ended, Form, Odd, Range):
        keys = []
    if random.random() < 0.1:
        return odd_key(random)
    key = random.choice(keys) if keys else Key(random.randint(-5, 10**10), "T1", 28800, 2, LAST_SERVICE_DAY)
    key = beside(random, key) if random.random() < 0.5 else key
    return f"@{key.instant}/{key.trip}/{key.run}/{key.sequence}/{date_text(key.date)}"


def one_of(random, ids, unknown):
    return random.choice(ids) if ids and random.random() < 0.93 else unknown


# ---- requests


def fields_of_request(random, made, zone):
    """The fields of a line, of which nearly all are good."""
    stop = stop_in(random, made) if random.random() < 0.1 else random.choice(made.ids("stops.txt", "stop_id") or ["S1"])
    begin = moment(random, made) if random.random() < 0.1 else random.choice([date_text(made.base), f"@{near(random, made)}"])
    fields = [stop, begin, later(random, begin)]
    if random.random() < 0.5:
        fields.append(random.choice(["", "0", "1", "2", "3", "007", "2147483647"]))
        if random.random() < 0.6:
            fields.append(key_near(random, zone, stop, begin) if random.random() < 0.7 else "")
    return fields


def spoiled(random, fields):
    """The fields of a line that is refused, for most draws."""
    at = random.randrange(len(fields) or 1)
    odd = ["S99", "", "x", "\r", "\ufeff", " ", random.choice(ODD_MOMENTS), random.choice(ODD_KEYS)]
    return random.choice([
        [*fields[:at], random.choice(odd), *fields[at + 1:]], [*fields[:at], random.choice(odd), *fields[at + 1:]], fields[:at],
        [*fields[:at], random.choice(odd), *fields[at:]], [*fields, "", "", ""], [*fields[:1], *fields[2:3], *fields[1:2], *fields[3:]],
        [" ".join(fields)], ["@0", *fields[1:]], [*fields[:1], "99990101", *fields[2:]],
    ])


def make_lines(random, asked, spoils):
    """The fields of some lines, each as `asked` makes them, of which one may come again, and some are spoiled."""
    lines = [asked() for _ in range(random.choice([0, 1, 2, 2, 3, 4, 6]))]
    lines += random.choices(lines, k=1) if lines and random.random() < 0.3 else []
    for _ in range(random.choice(spoils)):
        if lines:
            at = random.randrange(len(lines))
            lines[at] = spoiled(random, lines[at])
    return lines


def text_of_lines(random, texts):
    """The text of lines that are ended in one or the other way, with some that are empty."""
    for _ in range(random.choice([0, 0, 1, 3])):
        texts.insert(random.randint(0, len(texts)), "")
    ends = random.choice([["\n"], ["\r\n"], ["\n", "\r\n"], ["\n"] * 9 + ["\r", "\r\r\n"]])
    text = "".join(line + random.choice(ends) for line in texts)
    return text.removesuffix("\n") if random.random() < 0.3 else text


def make_requests(random, made, zone):
    """The bytes of a file of requests."""
    lines = make_lines(random, lambda: fields_of_request(random, made, zone), [0, 0, 0, 0, 0, 0, 1, 1, 2])
    text = text_of_lines(random, ["\t".join(fields) for fields in lines])
    return ("\ufeff" * random.choice([0, 0, 0, 1, 2]) + text).encode("utf-8", "surrogateescape")


def fields_of_timetable(random, made):
    """The fields of a line that asks for a timetable, of which nearly all are good."""
    route, date = route_in(random, made), date_of_runs(random, made)
    return [route, date, *([random.choice(["", "0", "1"])] if random.random() < 0.5 else [])]


def long_line(random):
    """A line of as many bytes as one may have, or of one more: an empty board, if it is answered."""
    begun = "board\tS1\t@0\t@0\t"
    return begun + "0" * (LONGEST + random.choice([0, 1]) - len(begun))


def with_odd_bytes(random, held):
    """The bytes with some between them that are no text, or that are not cut from the beginning of the input."""
    odd = random.choice([b"\0", b"\x80", b"\xff", b"\xed\xa0\x80", b"\xef\xbb\xbf"])
    at = random.choice([0, random.randint(0, len(held))])
    return held[:at] + odd + held[at:]


def make_input(random, made, zone):
    """The bytes of an input with requests for boards and timetables."""
    boards = make_lines(random, lambda: fields_of_request(random, made, zone), [0, 0, 1, 1, 2])
    timetables = make_lines(random, lambda: fields_of_timetable(random, made), [0, 0, 0, 1])
    lines = [["board", *fields] for fields in boards] + [["timetable", *fields] for fields in timetables]
    random.shuffle(lines)
    if lines and random.random() < 0.3:
        lines[0] = spoiled(random, lines[0])
    elif lines and random.random() < 0.15:
        lines[-1][0] = random.choice(["Board", "boards", "check", "board ", "board" if lines[-1][0] == "timetable" else "timetable"])
    texts = ["\t".join(fields) for fields in lines]
    if random.random() < 0.05:
        texts.insert(random.randint(0, len(texts)), long_line(random))
    held = text_of_lines(random, texts).encode("utf-8", "surrogateescape")
    return with_odd_bytes(random, held) if random.random() < 0.15 else held


# ---- the texts of each command


def stop_in(random, made):
    """A stop that is called at, or at times another one."""
    called = made.ids("stop_times.txt", "stop_id") + made.ids("stops.txt", "parent_station")
    return one_of(random, called if random.random() < 0.8 else made.ids("stops.txt", "stop_id"), "S99")


def given_board(random):
    made = put_feed(random, "f", random.choice([0, 0, 0, 0, 0, 1, 2]))
    zone = put_zones(random, made)
    stop = stop_in(random, made)
    begin = moment(random, made)
    end = later(random, begin) if random.random() < 0.85 else moment(random, made)
    end = random.choice(ODD_MOMENTS) if random.random() < 0.03 else end
    given = {"DIR": folder_word(random), "zone": zone, "stop": stop, "from": begin, "until": end}
    if random.random() < 0.35:
        limits = ["2147483648", "x", "", "+1"] if random.random() < 0.1 else ["0", "1", "2", "3", "007", "2147483647"]
        given["limit"] = random.choice(limits)
    if random.random() < 0.4:
        given["after"] = key_near(random, zone, stop, begin)
    if random.random() < 0.5:
        given["interpolate"] = ""
    return given


def given_boards(random):
    made = put_feed(random, "f", random.choice([0, 0, 0, 0, 0, 1, 2]))
    zone = put_zones(random, made)
    put(".", {"requests": make_requests(random, made, zone), "latin": b"S\xe9\t20240401\t20240402\n"})
    path = "requests" if random.random() < 0.95 else random.choice(ODD_REQUESTS)
    given = {"DIR": folder_word(random), "zone": zone, "requests": path}
    if random.random() < 0.5:
        given["interpolate"] = ""
    return given


def given_serve(random):
    made = put_feed(random, "f", random.choice([0, 0, 0, 0, 0, 1, 2]))
    zone = put_zones(random, made)
    put(".", {"input": make_input(random, made, zone)})
    given = {"DIR": folder_word(random), "zone": zone}
    if random.random() < 0.5:
        given["interpolate"] = ""
    return given


def date_of_runs(random, made):
    """A date that services name, or at times another one, or something else."""
    dates = made.ids("calendar.txt", "start_date") * 2 + made.ids("calendar_dates.txt", "date") + [date_text(made.base)]
    date = random.choice(dates)
    if random.random() < 0.1:
        date = random.choice(["", "@5", "99991231", "19000101", "18991231", "20240230", "2024-04-01", "20230229"])
    return date


def route_in(random, made):
    """A route of a trip, or at times another one."""
    return one_of(random, made.ids("trips.txt", "route_id"), "R99")


def given_timetable(random):
    made = put_feed(random, "f", random.choice([0, 0, 0, 0, 0, 1, 2]))
    put(".", {"z": b"no folder"})
    date, route = date_of_runs(random, made), route_in(random, made)
    given = {"DIR": folder_word(random), "route": route, "date": date}
    if random.random() < 0.4:
        given["direction"] = random.choice("01" if random.random() < 0.8 else ["2", "00", "", "+1", "01"])
    if random.random() < 0.5:
        given["interpolate"] = ""
    return given


def given_merge(random):
    made = put_feed(random, "a", random.choice([0] * 8 + [1]))
    if random.random() < 0.7:
        other = copy.deepcopy(made)
        change(random, other, DIFFERENCES, random.choice([0, 1, 1, 2, 2, 3, 4]))
        change(random, other, MOVES, random.choice([0, 0, 1, 2, 3]))
        put("b", file_bytes(random, other))
    else:
        put_feed(random, "b", random.choice([0, 0, 0, 0, 1]))
    put(".", {"z": b"no folder"})
    a, b = (name if random.random() < 0.94 else random.choice(["none", "", "z", "z"]) for name in "ab")
    out = random.choice(["out", "out/deep/er", "a", "b", "b"] if random.random() < 0.88 else ["z/out", "z", ""])
    given = {"A": a, "B": b, "OUT": out}
    if random.random() < 0.5:
        odd = ["2147483648", "x", "", "+1", "-1", "1.0", " 1"]
        given["near"] = random.choice(odd if random.random() < 0.06 else ["0", "1", "1", "5", "0010", "2147483647"])
    if random.random() < 0.5:
        given["cutoff"] = service_day(random, made, [-1, 0, 0, 1, 1, 2])
    return given


GIVEN = {"board": given_board, "boards": given_boards, "serve": given_serve, "timetable": given_timetable, "merge": given_merge}


# ---- words


def words_of(random, command, given):
    """Words that give these texts, the options in any order and place."""
    positions, _, _, flags = COMMANDS[command]
    options = [name for name in given if name not in positions]
    random.shuffle(options)
    groups = [[given[name]] for name in positions if name in given]
    for name in options:
        text = given[name]
        joined = text.startswith("-") or (text and random.random() < 0.3)
        group = [f"--{name}"] if name in flags else [f"--{name}={text}"] if joined else [f"--{name}", text]
        groups.insert(random.randint(0, len(groups)), group)
    return [command, *(word for group in groups for word in group)]


def odd_words(random, command, given):
    """Words that are refused, or that ask for help or for the version."""
    words = words_of(random, command, given)
    lost = random.choice(list(given))
    less = words_of(random, command, {name: text for name, text in given.items() if name != lost})
    not_utf8 = random.choice([[*words, "\udcff"], ["\udcff", *words], [command, "\udcff", "--help"]])
    asking = random.choice([["--help"], ["-h"], [command, "--help"], [command, "-h"], [*words, "--help"]])
    version = random.choice([["--version"], ["-V"], ["--version", *words], ["-V", "--help"]])
    refused = random.choice([
        [], ["help"], ["Check", "f"], [command, "--version"], [*words, "-V"], [*words, "--foo"], [*words, "more"],
        [*words, "--foo", "--help"], [*words, "--zone"], [*words, "--interpolate"], [*words, "--interpolate=true"],
        [*words, "--near"], [*words, "--cutoff"], [*words, "--requests"], [*words, "--day"], [*words, "--advise=1"],
        [*words, "--values", "--summary", "--values"], ["--foo"], ["-x", *words], [*words, "--"],
        [*words, "--", "--help"], ["check", "--", "-d"], less, less,
    ])
    return random.choice([not_utf8, asking, version, refused, refused, refused])


def make_case(name):
    """Makes the case of this name, as `1-17-board` or `1-17-hostile-board`, in the folder where this runs, and gives its words."""
    random = Random(name)
    command = name.split("-")[-1]
    given = given_check(random, int(name.split("-")[1]) // len(COMMANDS)) if command == "check" else GIVEN[command](random)
    if "-hostile-" in name:
        return change_case(random, words_of(random, command, given))
    return odd_words(random, command, given) if random.random() < 0.07 else words_of(random, command, given)
