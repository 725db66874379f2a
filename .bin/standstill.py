"""Standstill, in the one sense that every program here has of it, document 02's: ten accepted samples running without pulses, this one
included. A newly opened session counts as standing."""

NEEDED = 10


def counts(pulses):
    """For each accepted sample since the opening, by its pulses, how many run without pulses, this one included."""
    count = NEEDED  # as if so many had run before the first
    for here in pulses:
        count = 0 if here else count + 1
        yield count


def is_reached(count):
    """Is a sample at standstill with which so many run without pulses?"""
    return count >= NEEDED


def shortfall(count, pulses):
    """What a sample lacks that is not at standstill, in words: so many run without pulses with it, and it has so many itself."""
    if pulses:
        return f"this one has {pulses} {'pulse' if pulses == 1 else 'pulses'}, must be {NEEDED} samples or more running without"
    return f"with this one {count} {'sample' if count == 1 else 'samples'} running without pulses, must be {NEEDED} or more"
