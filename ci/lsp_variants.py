"""Messages of the Language Server Protocol that aren't as they should be, made of those that are."""

import copy
import json

# A value of each type, and some at its bounds.
VALUES = (None, True, -1, 1.5, 1 << 70, "", [], {}, [[]], [{}])

# Ids that a server has to answer under: numbers of 32 bits, and texts.
MOST_ID = (1 << 31) - 1

LEFT_OUT = object()


def places_in(value, above=()):
    """The ways to all values in a value."""
    each = value.items() if isinstance(value, dict) else enumerate(value) if isinstance(value, list) else ()
    for key, below in each:
        yield (*above, key)
        yield from places_in(below, (*above, key))


def at_place(value, place):
    for key in place:
        value = value[key]
    return value


def replaced(value, place, part):
    """A value with another part at a place, or with none."""
    made = copy.deepcopy(value)
    around = at_place(made, place[:-1])
    if part is LEFT_OUT:
        del around[place[-1]]
    else:
        around[place[-1]] = part
    return made


def variants(message, values=VALUES):
    """A message with each of its parts left out, and with each of these values in its place; and the values alone."""
    for place in places_in(message):
        for part in (LEFT_OUT, *values):
            if part is LEFT_OUT or json.dumps(part) != json.dumps(at_place(message, place)):
                yield replaced(message, place, part)
    yield from values


def is_request(message):
    """Whether a message has to be answered under its id."""
    if not isinstance(message, dict) or message.get("jsonrpc") != "2.0" or not isinstance(message.get("method"), str):
        return False
    number = message.get("id")
    return isinstance(number, str) or (type(number) is int and abs(number) <= MOST_ID)


def is_notification(message):
    return isinstance(message, dict) and "id" not in message and isinstance(message.get("method"), str)


def wrong_answers(message, told):
    """What is wrong with what a server answers, a list of messages, after one; or None."""
    answers = [one for one in told if "method" not in one]
    if is_request(message) and [answer.get("id") for answer in answers] != [message["id"]]:
        return f"a request has the answers {answers}"
    if is_notification(message) and answers:
        return f"a notification has the answers {answers}"
    if len(answers) > 1:
        return f"a message has the answers {answers}"
    return None
