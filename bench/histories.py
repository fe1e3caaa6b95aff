"""The histories of the bench, each a legal one of so many lines, and the same for the same number:

  looks      16 clients open trips and look at bookings that aren't there
  bookings   16 clients open a trip each, then book and cancel, with their nested calls, taking turns
  mixed      16 clients open, book, cancel and look as it is drawn, and are refused at times
"""

from mixed import mixed

CLIENTS = 16


def looks(lines):
    """Every fourth request opens a trip, as long as there are trips; the others look."""
    seqs = [0] * (CLIENTS + 1)
    trip = 0
    for k in range(lines):
        client = k % CLIENTS + 1
        seqs[client] += 1
        who = "%d.%d" % (client, seqs[client])
        if k % 4 == 0 and trip < 9_999:
            trip += 1
            yield "start %s 0 open %d 40 100 0" % (who, trip)
        else:
            yield "start %s 0 look %d" % (who, 1 + 7 * k % 1_000_000)


class Numbers:
    """The numbers of nested calls, by tier."""

    def __init__(self):
        self.last = {"inv": 0, "pay": 0}

    def next(self, tier):
        self.last[tier] += 1
        return self.last[tier]


def two_calls(who, request, tiers, numbers):
    """A request with a nested call of each of the two tiers, in order."""
    call = numbers.next(tiers[0])
    yield "start %s %d %s" % (who, call, request)
    yield "serve %s %d" % (tiers[0], call)
    call = numbers.next(tiers[1])
    yield "resume %s %d" % (who, call)
    yield "serve %s %d" % (tiers[1], call)
    yield "resume %s 0" % who


def client_lines(client, numbers):
    """A client opens its own trip, and then books it and cancels the booking over and over. At most two of its bookings
    stand at a time, so no request is refused."""
    trip = 100 * client
    yield "start %d.1 0 open %d 40 100 0" % (client, trip)
    seq = 1
    kept = []
    while True:
        seq += 1
        who = "%d.%d" % (client, seq)
        if len(kept) < 2:
            yield from two_calls(who, "book %d 1" % trip, ("inv", "pay"), numbers)
            kept.append(16 * (seq - 1) + client)
        else:
            yield from two_calls(who, "cancel %d" % kept.pop(0), ("pay", "inv"), numbers)
        seq += 1
        yield "start %d.%d 0 look %d" % (client, seq, kept[-1])


def bookings(lines):
    """The clients take turns by a line each, so that all of them are in the middle of a request."""
    numbers = Numbers()
    clients = [client_lines(client, numbers) for client in range(1, CLIENTS + 1)]
    for k in range(lines):
        yield next(clients[k % CLIENTS])


HISTORIES = {"looks": looks, "bookings": bookings, "mixed": mixed}
