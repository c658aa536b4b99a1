"""Why an offer was skipped. The Rust does not tell: the rules (docs/RULES.md) say it, from the Rust's own last recorded second."""
from .oracle import REFUSED

RECORDED, WENT_BACK, TOO_SOON = 0, 1, 2


def reason(last, interval, sec):
    """Why the rules skip a second after this last recorded one (None: none was recorded), and None where they do not."""
    if last is None:
        return None
    if sec < last:
        return WENT_BACK
    return TOO_SOON if sec - last < interval else None


def outcome(answer, last, interval, sec):
    """What one offer came to. The Rust, whose answer is taken apart, has to skip exactly where there is a reason."""
    why, skipped = reason(last, interval, sec), answer == (0, 1, 0)
    if skipped != (why is not None):
        raise ValueError(f"{sec} after {last} at interval {interval}: the Rust answers {answer}, and the reason is {why}")
    return why if skipped else {(1, 0, 0): RECORDED, (0, 0, REFUSED): REFUSED}[answer]


def outcomes(answers, pairs, last, interval):
    """What pairs offered one by one came to, from the Rust's answers, and the last recorded second after them."""
    came = []
    for answer, (_, sec) in zip(answers, pairs):
        came.append(outcome(answer, last, interval, sec))
        if came[-1] == RECORDED:
            last = sec
    return came, last
