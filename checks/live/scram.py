"""The server's side of SCRAM-SHA-256 (RFC 5802, RFC 7677), by Python's library alone, and what a server may do wrong in it."""
import base64
import hashlib
import hmac
import os

ROUNDS, UNKNOWN = 4096, (18, 'AuthenticationFailed')
# What a server's messages may be damaged to.
LIES = ('none', 'nonce', 'rounds', 'many-rounds', 'salt', 'signature', 'garbage', 'wide', 'no-payload', 'endless', 'down')


def digest(key, text):
    return hmac.new(key, text.encode(), hashlib.sha256).digest()


class Keys:
    """What a server keeps of a password."""

    def __init__(self, password, salt, rounds=ROUNDS):
        salted = hashlib.pbkdf2_hmac('sha256', password.encode(), salt, rounds)
        self.salt, self.rounds = salt, rounds
        self.stored = hashlib.sha256(digest(salted, 'Client Key')).digest()
        self.server = digest(salted, 'Server Key')


class Login:
    """The conversation of one connection. `users` are keys by names; without users everybody may do everything."""

    def __init__(self, users, nonce=None):
        self.users, self.done, self.asked = users, not users, None
        self.nonce = nonce or base64.b64encode(os.urandom(18)).decode()

    def start(self, payload, lie='none'):
        """The server's first message; None where it is none that can be answered."""
        head, _, bare = payload.decode().partition(',,')
        fields = dict(it.split('=', 1) for it in bare.split(','))
        keys = self.users.get(fields['n'].replace('=2C', ',').replace('=3D', '='))
        if head != 'n' or not keys:
            return None
        nonce = self.nonce if lie == 'nonce' else fields['r'] + self.nonce
        rounds = {'rounds': 1000, 'many-rounds': 2000000000}.get(lie, keys.rounds)
        salt = '!!!' if lie == 'salt' else base64.b64encode(keys.salt).decode()
        told = 'r=%s,s=%s,i=%d' % (nonce + ('x' * 1500 if lie == 'wide' else ''), salt, rounds)
        self.asked = (keys, bare, told, nonce)
        return {'garbage': b'\xff\0,,=,r'}.get(lie, told.encode())

    def go_on(self, payload, lie='none'):
        """The server's last message; None where the client does not know the password."""
        if not self.asked:
            return b'' if self.done else None
        (keys, bare, told, nonce), self.asked = self.asked, None
        without, _, proof = payload.decode().rpartition(',p=')
        fields = dict(it.split('=', 1) for it in without.split(','))
        signed = ','.join([bare, told, without])
        key = bytes(a ^ b for a, b in zip(base64.b64decode(proof), digest(keys.stored, signed)))
        if fields['c'] != 'biws' or fields['r'] != nonce or hashlib.sha256(key).digest() != keys.stored:
            return None
        self.done = True
        signature = digest(keys.server, signed + ('!' if lie == 'signature' else ''))
        return b'v=' + base64.b64encode(signature)

    def answer(self, command, lie):
        """The fields of the answer to `saslStart` or `saslContinue`; None where the server refuses the client."""
        try:
            start = 'saslStart' in command
            known = not start or command['mechanism'] == 'SCRAM-SHA-256'
            payload = known and (self.start if start else self.go_on)(bytes(command['payload']), lie)
        except (KeyError, ValueError, UnicodeDecodeError):
            payload = None
        if payload is None or payload is False:
            return None
        told = {'conversationId': 1, 'done': self.done and lie != 'endless', 'payload': payload, 'ok': 1.0}
        if lie == 'no-payload':
            del told['payload']
        return told
