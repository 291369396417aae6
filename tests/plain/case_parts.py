"""Parts of cases of several commands: the folder of a feed, zone files, and service days about those of a feed."""
import datetime
import os

from feed_maker import BASES, file_bytes, make_feed
from oddities import ODDITIES, change
from values import FIRST_SERVICE_DAY, LAST_SERVICE_DAY, Form, Range, date_text, read_date
from zone_maker import make_zone, no_zone
from zones import midnight

ODD_ZONES = ["zones/bad", "zones/bad", "zones/bad", "zones/bad", "none", "zones", "zones/", "z/z", "", "no/z", "z\t"]

ODD_DAYS = [
    "99990101", "99991231", "18991231", "20240230", "2024-04-01", "202404011", "", "@0", "@1711929600", " 20240401", "+20240401",
]


def put(path, files):
    os.makedirs(path, exist_ok=True)
    for name, held in files.items():
        with open(os.path.join(path, name), "wb") as file:
            file.write(held)


def put_feed(random, folder, oddities, aims=None):
    """A feed in a folder, with so many odd changes, and with those that aim at something, if any."""
    made = make_feed(random, random.choice(BASES))
    change(random, made, ODDITIES, oddities)
    if aims is not None:
        aims(random, made)
    put(folder, file_bytes(random, made))
    if random.random() < 0.03:
        # (a folder of the name of a kept file and a name that is not UTF-8 cannot be read)
        name = random.choice([b"notes.d", b"levels.txt", b"transfers.txt", b"\xff"])
        if name not in os.listdir(os.fsencode(folder)):
            os.mkdir(os.path.join(os.fsencode(folder), name))
    return made


def folder_word(random):
    """The folder of the feed, or at times something else."""
    return "f" if random.random() < 0.94 else random.choice(["none", "", "z", "z/f", "f/", "./f", "a\tb", "none/f"])


def put_zones(random, made):
    """The files of zones, and the path of one, or at times of something else."""
    put("zones", {"z": make_zone(random, midnight(made.base)), "bad": no_zone(random)})
    put(".", {"z": b"no folder"})
    return "zones/z" if random.random() < 0.91 else random.choice(ODD_ZONES)


def service_day(random, made, offsets):
    """A service day so many days from one that a feed names, or another one, or something else."""
    form = random.random()
    if form < 0.06:
        return random.choice(ODD_DAYS)
    if form < 0.14:
        return random.choice(["19000101", "99981231", "20240401"])
    named = [date for column in ("start_date", "end_date") for date in made.ids("calendar.txt", column)]
    named += made.ids("calendar_dates.txt", "date")
    try:
        date = read_date(random.choice([*named, date_text(made.base)]))
    except (Form, Range):
        date = made.base
    date = min(date, LAST_SERVICE_DAY) + datetime.timedelta(random.choice(offsets))
    return date_text(min(max(date, FIRST_SERVICE_DAY), LAST_SERVICE_DAY))
