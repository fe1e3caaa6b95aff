"""The scripts of the bench, each of so many events, and the same for the same number:

  leads   five nodes a tier, and one of them takes ballot after ballot; at most 16,257 events under the limit on packets
"""

HEADER = "tiers 2 depth 1"


def leads(events):
    yield HEADER
    for _ in range(events):
        yield "lead m0"


SCRIPTS = {"leads": leads}
