"""How the model's routines answer: `success(..)` is returned, and a refusal is raised by `demand`."""

from second import Refused

TOO_LONG, NO_LABELLING, BAD_TABLE, NO_ROOM, BAD_LABEL, CSV_SYNTAX, CSV_HEADER = 1, 9, 10, 11, 12, 16, 17


def success(*values, which=0, **fronts):
    """Which success of the routine it is, its values, and by name what is written at the front of lent buffers."""
    return which, values, fronts


def demand(holds, number, place=0):
    """Refuses with this number and place unless something holds."""
    if not holds:
        raise Refused(number, place)
