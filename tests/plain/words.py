"""The words of the command line: what they ask for, what they are refused for, and when they ask for help or for the version."""

# Of each command the words by position, the options that it needs, those that it may have, and its flags, which have no text.
COMMANDS = {
    "check": (["DIR"], [], ["day"], ["values", "summary", "advise"]),
    "board": (["DIR"], ["zone", "stop", "from", "until"], ["limit", "after"], ["interpolate"]),
    "boards": (["DIR"], ["zone", "requests"], [], ["interpolate"]),
    "serve": (["DIR"], ["zone"], [], ["interpolate"]),
    "timetable": (["DIR"], ["route", "date"], ["direction"], ["interpolate"]),
    "merge": (["A", "B", "OUT"], [], ["near", "cutoff"], []),
}


class Help(Exception):
    """The words ask for help before anything is wrong with them."""


class Version(Exception):
    """They ask for the version so."""


class NotUtf8(Exception):
    """A word is not UTF-8."""


class Refused(Exception):
    """Something is wrong with the words first."""


def asks_for_help(word):
    """Letters behind one dash are options of a letter each, of which the first decides."""
    return word == "--help" or word.startswith("-h")


def asks_for_version(word):
    return word == "--version" or word.startswith("-V")


def looks_like_option(word):
    """A dash alone is a text as any other."""
    return word.startswith("-") and word != "-"


def read_words(words):
    """The command and the text of each position, option and flag. The words stand behind the program's name."""
    if any("\udc80" <= char <= "\udcff" for word in words for char in word):
        raise NotUtf8
    if not words:
        raise Refused
    if asks_for_help(words[0]):
        raise Help
    if asks_for_version(words[0]):
        raise Version
    if words[0] not in COMMANDS:
        raise Refused
    positions, needed, free, flags = COMMANDS[words[0]]
    given, options_end = {}, False
    rest = list(words[1:])
    while rest:
        word = rest.pop(0)
        if asks_for_help(word) and not options_end:
            raise Help
        if word == "--" and not options_end:
            options_end = True
            continue
        if word.startswith("--") and not options_end:
            name, equals, text = word[2:].partition("=")
            if name not in needed + free + flags or name in given or (name in flags and equals):
                raise Refused
            if name not in flags and not equals:
                if not rest or looks_like_option(rest[0]):
                    raise Refused
                text = rest.pop(0)
        else:
            left = [position for position in positions if position not in given]
            if (looks_like_option(word) and not options_end) or not left:
                raise Refused
            name, text = left[0], word
        given[name] = text
    if not all(name in given for name in positions + needed):
        raise Refused
    return words[0], given
