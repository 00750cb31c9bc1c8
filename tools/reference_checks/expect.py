"""How a self-check fails, and the checks that every operation has."""

from reference_meaning.refusals import ACCEPTED, first_of, said


class SelfCheckFailed(Exception):
    pass


def expect(held, what):
    """Not `assert`, which can be switched off."""
    if not held:
        raise SelfCheckFailed(what)


def check_refusals(what, order, chosen, refusal_of):
    """Of several refusals that apply the first in the operation's order is given; every one of
    them is met by some input, and some input by none."""
    for applying, case in chosen.ordered:
        found, due = refusal_of(case), first_of(order, applying)
        # A row may be long, so its start has to do.
        shown = str(case)[:200]
        expect(found == due, f"{what} {shown}: refusal {said(found)}, not {said(due)}, applying {applying}")
    found = {refusal_of(case) for case in chosen.cases}
    expect(found == {ACCEPTED, *order}, f"{what}: outcomes {sorted(found)}")
