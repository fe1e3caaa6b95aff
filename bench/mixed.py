"""The history `mixed`: 16 clients whose turns, requests and trips are drawn, so that requests are refused in each way that
a service without linked trips refuses. A line takes effect in the ledger before the next one is drawn, so each line is a
legal step whatever the turns are."""

CLIENTS = 16
TRIPS = 400
SEATS = 100
MONEY = 10_000
BOOKINGS_AT_ONCE = 4


class Draws:
    """Numbers that look random and are the same on each run: a linear congruential generator (Knuth, MMIX)."""

    def __init__(self):
        self.state = 1

    def below(self, bound):
        self.state = (6_364_136_223_846_793_005 * self.state + 1_442_695_040_888_963_407) % 2**64
        return (self.state >> 33) % bound


class Trip:
    def __init__(self, cap, price):
        self.cap, self.price = cap, price
        self.booked = 0
        self.reserved = 0


class Ledger:
    """What tells whether a step calls or replies: trips, and what each client has."""

    def __init__(self):
        self.trips = {}
        self.calls = {"inv": 0, "pay": 0}

    def number(self, tier):
        self.calls[tier] += 1
        return self.calls[tier]


class Client:
    def __init__(self, number, ledger, draws):
        self.number, self.ledger, self.draws = number, ledger, draws
        self.seq = 0
        self.standing = []
        self.pending = 0
        self.spent = 0

    def who(self):
        return "%d.%d" % (self.number, self.seq)

    def lines(self):
        """Request after request, a line at a time."""
        while True:
            self.seq += 1
            kind = self.draws.below(20)
            if kind == 0:
                yield self.open()
            elif self.standing and (kind < 7 or len(self.standing) == BOOKINGS_AT_ONCE):
                yield from self.cancel()
            elif kind < 16:
                yield from self.book()
            else:
                yield self.look()

    def open(self):
        trip, cap, price = 1 + self.draws.below(TRIPS), 40 * (1 + self.draws.below(5)), (10, 100, 2000)[self.draws.below(3)]
        self.ledger.trips.setdefault(trip, Trip(cap, price))
        return "start %s 0 open %d %d %d 0" % (self.who(), trip, cap, price)

    def look(self):
        booking = self.standing[0][0] if self.standing else 1 + self.draws.below(1000)
        return "start %s 0 look %d" % (self.who(), booking)

    def drawn_trip(self):
        """Mostly a trip that is open."""
        numbers = list(self.ledger.trips)
        if not numbers or self.draws.below(16) == 0:
            return 1 + self.draws.below(TRIPS)
        return numbers[self.draws.below(len(numbers))]

    def book(self):
        number, qty = self.drawn_trip(), 1 + self.draws.below(3)
        trip = self.ledger.trips.get(number)
        asks = "book %d %d" % (number, qty)
        if trip is None or trip.booked + qty > trip.cap or len(self.standing) + self.pending == BOOKINGS_AT_ONCE:
            yield "start %s 0 %s" % (self.who(), asks)
            return
        trip.booked += qty
        call = self.ledger.number("inv")
        yield "start %s %d %s" % (self.who(), call, asks)
        granted = trip.reserved + qty <= SEATS
        trip.reserved += qty if granted else 0
        yield "serve inv %d" % call
        if granted:
            yield from self.pay(trip, qty)
        else:
            trip.booked -= qty
            yield "resume %s 0" % self.who()

    def pay(self, trip, qty):
        call = self.ledger.number("pay")
        yield "resume %s %d" % (self.who(), call)
        granted = self.spent + qty * trip.price <= MONEY
        self.spent += qty * trip.price if granted else 0
        yield "serve pay %d" % call
        if granted:
            self.standing.append((CLIENTS * (self.seq - 1) + self.number, trip, qty))
        else:
            trip.booked -= qty
            yield from self.release(trip, qty)
        yield "resume %s 0" % self.who()

    def release(self, trip, qty):
        call = self.ledger.number("inv")
        yield "resume %s %d" % (self.who(), call)
        trip.reserved -= qty
        yield "serve inv %d" % call

    def cancel(self):
        booking, trip, qty = self.standing.pop(0)
        self.pending = 1
        call = self.ledger.number("pay")
        yield "start %s %d cancel %d" % (self.who(), call, booking)
        self.spent -= qty * trip.price
        yield "serve pay %d" % call
        yield from self.release(trip, qty)
        trip.booked -= qty
        self.pending = 0
        yield "resume %s 0" % self.who()


def mixed(lines):
    ledger, draws = Ledger(), Draws()
    clients = [Client(number, ledger, draws).lines() for number in range(1, CLIENTS + 1)]
    for _ in range(lines):
        yield next(clients[draws.below(CLIENTS)])
