"""Judges parameter sets: what a flow may request, what that needs, and when one is within another."""

from .coverage import MetFault, met
from .encodings import (BURST, CLASS_NAME, GRANT_INTERVAL, GRANT_JITTER, GRANT_SIZE, GRANTS, POLICY, POLL_JITTER,
                        POLLING_INTERVAL, PRIORITY, RESERVED, SCHEDULING, SUSTAINED)
from .messages import INVALID, MISSING

BEST_EFFORT, NON_REAL_TIME, REAL_TIME, UNSOLICITED = 2, 3, 4, 6
POLLING = (NON_REAL_TIME, REAL_TIME)

KEPT = {
    BEST_EFFORT: (PRIORITY, SUSTAINED, BURST, RESERVED, POLICY),
    NON_REAL_TIME: (PRIORITY, SUSTAINED, BURST, RESERVED, POLICY, POLLING_INTERVAL, POLL_JITTER),
    REAL_TIME: (PRIORITY, SUSTAINED, BURST, RESERVED, POLICY, POLLING_INTERVAL, POLL_JITTER),
    UNSOLICITED: (PRIORITY, SUSTAINED, BURST, POLICY, GRANT_SIZE, GRANT_INTERVAL, GRANT_JITTER, GRANTS),
}
REQUIRED = {BEST_EFFORT: (), NON_REAL_TIME: (), REAL_TIME: (POLLING_INTERVAL,),
            UNSOLICITED: (GRANT_SIZE, GRANT_INTERVAL, GRANTS)}
PARAMETERS = tuple(sorted(KEPT[REAL_TIME] + (GRANT_SIZE, GRANT_INTERVAL, GRANT_JITTER, GRANTS)))
# The order of the numbers of a set in a snapshot: the scheduling type first.
PARAMETER_ORDER = (SCHEDULING, PRIORITY, SUSTAINED, BURST, RESERVED, POLICY, POLLING_INTERVAL, POLL_JITTER, GRANT_SIZE, GRANT_INTERVAL,
                   GRANT_JITTER, GRANTS)
POLLING_INTERVAL_OF_NON_REAL_TIME = 1_000_000


class NoSet(MetFault):
    """An encoding asks for no parameter set: the confirmation code and the subtype that it names."""

    def __init__(self, code, subtype):
        super().__init__(f"no parameter set: {code} naming {subtype}", code=code, subtype=subtype)


def overridden(fields, classes):
    """Returns the encoding's own fields, and of the subtypes 7 to 22 that it does not state those of the class that it names."""
    if CLASS_NAME not in fields:
        return fields
    of_class = {subtype: value for subtype, value in classes[fields[CLASS_NAME]].items() if 7 <= subtype <= 22}
    return {**of_class, **fields}


def parameter_set(fields, frame_us):
    """Returns the parameter set that an encoding requests: its scheduling type and the subtypes that this kind keeps. Raises NoSet if it has none."""
    scheduling = fields.get(SCHEDULING, BEST_EFFORT)
    for subtype in REQUIRED.get(scheduling, ()):
        if subtype not in fields:
            raise NoSet(MISSING, subtype)
    if scheduling not in KEPT:
        raise NoSet(INVALID, SCHEDULING)
    asked = {subtype: fields.get(subtype, 0) if subtype in KEPT[scheduling] else 0 for subtype in PARAMETERS}
    asked[SCHEDULING] = scheduling
    if scheduling == NON_REAL_TIME and POLLING_INTERVAL not in fields:
        asked[POLLING_INTERVAL] = POLLING_INTERVAL_OF_NON_REAL_TIME
    if scheduling in POLLING and asked[POLLING_INTERVAL] < frame_us:
        raise NoSet(INVALID, POLLING_INTERVAL)
    if scheduling == UNSOLICITED:
        judge_grants(asked, frame_us)
    met(f"parameter set: scheduling type {scheduling}")
    return asked


def judge_grants(asked, frame_us):
    if asked[GRANT_SIZE] == 0:
        raise NoSet(INVALID, GRANT_SIZE)
    if asked[GRANT_INTERVAL] < frame_us:
        raise NoSet(INVALID, GRANT_INTERVAL)
    if not 1 <= asked[GRANTS] <= 127:
        raise NoSet(INVALID, GRANTS)


def rounded_up(number, divisor):
    return (number + divisor - 1) // divisor


def minislots_of(length, bytes_per_minislot):
    return rounded_up(length, bytes_per_minislot)


def frames_of(microseconds, frame_us):
    return microseconds // frame_us


def reserve_of(params, plant):
    return rounded_up(params[RESERVED] * plant.frame_us, 8_000_000 * plant.bytes_per_minislot)


def need_of(params, plant):
    """Minislots and elements of the MAP. The null set (None) needs nothing."""
    if params is None:
        return 0, 0
    if params[SCHEDULING] == UNSOLICITED:
        return params[GRANTS] * minislots_of(params[GRANT_SIZE], plant.bytes_per_minislot), params[GRANTS]
    reserve = reserve_of(params, plant)
    return (1 + reserve, 3) if params[SCHEDULING] in POLLING else (reserve, 2)


def rate_is_greater(one, other):
    """Tests whether one Maximum Sustained Traffic Rate is above another. 0 means no limit."""
    return other != 0 and (one == 0 or one > other)


def first_failing(one, other):
    """Returns the subtype by which one set is not within another, or None if it is within."""
    if one is None:
        return None
    if other is None or one[SCHEDULING] != other[SCHEDULING]:
        return SCHEDULING
    if one[PRIORITY] > other[PRIORITY]:
        return PRIORITY
    if rate_is_greater(one[SUSTAINED], other[SUSTAINED]):
        return SUSTAINED
    if one[RESERVED] > other[RESERVED]:
        return RESERVED
    if one[POLLING_INTERVAL] < other[POLLING_INTERVAL]:
        return POLLING_INTERVAL
    if one[GRANT_SIZE] > other[GRANT_SIZE]:
        return GRANT_SIZE
    if one[GRANT_INTERVAL] < other[GRANT_INTERVAL]:
        return GRANT_INTERVAL
    if one[GRANTS] > other[GRANTS]:
        return GRANTS
    return None
