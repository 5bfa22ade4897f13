"""A long legal log of one server: callers share ten connections, the monitor checks, and now and then the server fails and recovers."""
MOST = 10
OPENING = ('open seeds=a:1 direct | Done | Sdam TopologyOpening | Sdam TopologyDescriptionChanged Unknown/0 Single/1 | Opened 0 a:1'
           ' | Pool 0 PoolCreated a:1 max=- min=- idle=- | Sdam ServerOpening a:1\n')
CHANGES = 'Sdam ServerDescriptionChanged a:1 {} {} | Sdam TopologyDescriptionChanged Single/1 Single/1'


class Maker:
    def __init__(self):
        self.moment, self.party, self.created = 0, 0, 0
        self.fresh, self.stale = [], []  # available connections, the one that came back last behind; of this generation, of older ones

    def recover(self):
        self.moment += 3
        return f'hello {self.moment} a:1 0 ok rtt=900000 minWireVersion=0 maxWireVersion=21 | Changed true | Pool 0 PoolReady a:1 | {CHANGES.format("Unknown", "Standalone")}\n'

    def fail(self):
        self.moment += 2
        self.stale, self.fresh = self.stale + self.fresh, []
        return (f'hello {self.moment} a:1 0 err network msg=reset | Changed true | {CHANGES.format("Standalone", "Unknown")}'
                ' | Raised 0 - network msg=reset | Pool 0 PoolCleared a:1 service=- interrupt=false\n')

    def check(self):
        return f'hello {self.moment} a:1 0 ok rtt={800000 + self.party % 97 * 10000} minWireVersion=0 maxWireVersion=21 | Changed false\n'

    def ask(self):
        """A caller asks, and has a connection at the end: an available one, or a new one behind the stale ones that are closed."""
        self.party += 1
        head, p = f'request {self.moment} {self.party} a:1 | ', self.party
        if self.fresh:
            c = self.fresh.pop()
            return c, f'{head}Pooled 0.{c} | Pool 0 ConnectionCheckoutStarted a:1 | Granted {p} 0.{c} | Pool 0 ConnectionCheckedOut a:1 {c} 0\n'
        closed = ''.join(f' | Pool 0 ConnectionClosed a:1 {it} Stale service=-' for it in reversed(self.stale))
        self.stale, self.created = [], self.created + 1
        c = self.created
        return c, (f'{head}Establishing 0.{c} | Pool 0 ConnectionCheckoutStarted a:1{closed} | Pool 0 ConnectionCreated a:1 {c} | Granted {p} 0.{c}\n'
                   f'established {self.moment} 0 {c} wire=21 | Done | Pool 0 ConnectionReady a:1 {c} 0 | Pool 0 ConnectionCheckedOut a:1 {c} 0\n')

    def round(self):
        """So many callers ask one after the other, and give back in the order of their asking."""
        pieces, held = [], []
        for _ in range(1 + self.party % MOST):
            c, text = self.ask()
            held.append((self.party, c))
            pieces.append(text)
            self.moment += 1
        for party, c in held:
            self.fresh.append(c)
            pieces.append(f'return {self.moment} {party} ok | Done | Pool 0 ConnectionCheckedIn a:1 {c}\n')
        return ''.join(pieces)


def made(size, between=40):
    """The log's text, of at most so many bytes."""
    maker, pieces, length, number = Maker(), [OPENING], len(OPENING), 0
    while True:
        number += 1
        piece = maker.recover() if number == 1 else maker.round() + maker.check()
        if number % between == 0:
            piece += maker.fail() + maker.recover()
        length += len(piece)
        if length > size:
            return ''.join(pieces)
        pieces.append(piece)
