"""Feeds of which only the service days on one side of a cutoff are left: their services are trimmed, and all else stays."""
import datetime
from dataclasses import replace

from columns import WEEKDAYS
from content import Service


def week_before(week, cutoff):
    """What is left of a calendar row before the cutoff, if anything is."""
    if week is None or week["start_date"] >= cutoff:
        return None
    return {**week, "end_date": min(week["end_date"], cutoff - datetime.timedelta(1))}


def week_from(week, cutoff):
    """What is left of a calendar row from the cutoff on, if anything is."""
    if week is None or week["end_date"] < cutoff:
        return None
    return {**week, "start_date": max(week["start_date"], cutoff)}


def without_days(id, cutoff):
    """The calendar row of a service of which nothing is left."""
    return {"service_id": id, **{day: 0 for day in WEEKDAYS}, "start_date": cutoff, "end_date": cutoff}


def trimmed(feed, cutoff, week_of, is_left):
    """A feed with what is left of the calendar rows and of the exceptions of its services."""
    services = {}
    for id, service in feed.services.items():
        week = week_of(service.week, cutoff)
        exceptions = {date: kind for date, kind in service.exceptions.items() if is_left(date)}
        if week is None and not exceptions:
            week = without_days(id, cutoff)
        services[id] = Service(week, exceptions)
    return replace(feed, services=services)


def before(feed, cutoff):
    """The feed with the service days before the cutoff."""
    return trimmed(feed, cutoff, week_before, lambda date: date < cutoff)


def from_on(feed, cutoff):
    """The feed with the service days from the cutoff on."""
    return trimmed(feed, cutoff, week_from, lambda date: date >= cutoff)
