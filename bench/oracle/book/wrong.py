"""Errors that can be put into the book, one at a time, to see whether the scripts notice them."""
WRONG = (
    'whole range without its second draw', 'nanoseconds cut off', 'transmission before the rounding', 'probability 0 or 1 without a draw',
    'partition before the mark', 'loss drawn at rate 0', 'latency after the rules', 'mark before the rules', 'ring holds the message already',
    'replay not drawn on an empty ring', 'index of 64 bits', "echo of the new message's class", 'ring of 63', 'later sequence first',
    "block at the flush's now", 'mark kept at a flush drop', 'tallies without a log', 'log of handled rows alone', 'host handler of a shard entry',
    'NaN passes', 'marks kept by take-down', 'waiting gone with take-down', 'marks gone with bring-up', 'one window unblocked')
chosen = None


def choose(error):
    global chosen
    assert error is None or error in WRONG
    chosen = error


def wrong(error):
    assert error in WRONG, error
    return chosen == error
