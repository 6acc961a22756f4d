"""Has sign_ons.c run the model's honest sign-ons over the archive."""
import sys

from host import HERE, ROOT, link, run

sys.path.insert(0, str(ROOT / "tests" / "model"))

from card_cases import ANSWER, BEGIN, OPEN, sign_ons


def parts_of(played):
    """What is lent in a sign-on and what has to come, in the order in which sign_ons.c reads them."""
    (rounds,) = played.begin.numbers
    record, *keys_and_choices, _ = played.begin.buffers
    yield bytes([rounds])
    yield record
    yield from keys_and_choices
    yield from (given.buffers[4] for given in (played.answer, played.open))
    for call, given in ((BEGIN, played.begin), (ANSWER, played.answer), (OPEN, played.open)):
        told, after = call.play(given)
        (size,) = told.values
        yield from (size.to_bytes(2, "big"), given.buffers[-1], after[-1], after[0])
    yield bytes(len(keys_and_choices[-1]))


def check():
    sent = b"".join(len(part).to_bytes(4, "big") + part for played in sign_ons() for part in parts_of(played))
    return run([link("sign_ons", HERE / "sign_ons.c")], sent=sent).strip()
