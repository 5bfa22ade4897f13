"""A server of names on 127.0.0.1 that knows the SRV records of one host and its TXT record, for `mongodb+srv://`."""
import socket
import struct
import threading

SRV, TXT = 33, 16


def name(text):
    return b''.join(bytes([len(it)]) + it.encode() for it in text.split('.')) + b'\0'


class Names:
    """`records` are targets with ports; `@0` stands for the port of server 0. `txt` is the text of the TXT record, or None."""

    def __init__(self, names, addresses):
        self.records, self.txt, self.addresses = names['records'], names.get('txt'), addresses
        self.socket = socket.socket(socket.AF_INET, socket.SOCK_DGRAM)
        self.socket.bind(('127.0.0.1', 0))
        self.open = True
        threading.Thread(target=self.serve, daemon=True).start()

    def env(self):
        return {'MDB_LIVE_DNS': '127.0.0.1:%d' % self.socket.getsockname()[1], 'MDB_LIVE_RESCAN': '1'}

    def close(self):
        self.open = False
        self.socket.close()

    def serve(self):
        while self.open:
            try:
                query, asker = self.socket.recvfrom(4096)
                self.socket.sendto(self.answer(query), asker)
            except OSError:
                return

    def answer(self, query):
        end = query.index(b'\0', 12) + 1
        kind = struct.unpack('>H', query[end:end + 2])[0]
        answers = []
        if kind == SRV:
            for record in self.records:
                target, _, port = record.rpartition(':')
                port = self.addresses[int(port[1:])].rpartition(':')[2] if port[0] == '@' else port
                data = struct.pack('>HHH', 0, 0, int(port)) + name(target)
                answers.append(b'\xc0\x0c' + struct.pack('>HHIH', SRV, 1, 60, len(data)) + data)
        if kind == TXT and self.txt:
            data = bytes([len(self.txt)]) + self.txt.encode()
            answers.append(b'\xc0\x0c' + struct.pack('>HHIH', TXT, 1, 60, len(data)) + data)
        return query[:2] + struct.pack('>HHHHH', 0x8180, 1, len(answers), 0, 0) + query[12:end + 4] + b''.join(answers)
