#!/usr/bin/env python3
"""TLS and SCRAM-SHA-256: certificates that are trusted and others, users who are known and others, servers that do not know the password themselves.

usage: checks/live/secured.py [--program MDB_LIVE] [--without MDB_LIVE] [--calls CALLS] [--vectors VECTORS] [--auditor MDB_AUDITOR] [--python PYTHON] [NAME ..]

PROGRAM is examples/live/out/mdb_live where it is left out, WITHOUT examples/live/out/mdb_live-without, which has no OpenSSL (`make without`), CALLS and VECTORS as `make calls`
and `make vectors` leave them. Certificates are made by the program `openssl`. Status 0 where all is well, else 1.
"""
import argparse
import os
import subprocess
import sys
import tempfile
import time

sys.dont_write_bytecode = True
from mended import Calls, Played, legal
from run import HERE, TOP, Servers
from scram import Keys, Login

FAST = 'replicaSet=rs&heartbeatFrequencyMS=500&connectTimeoutMS=1500&serverSelectionTimeoutMS=1500'
USER, PASSWORD = 'a,b=c', 'p:e@n/c%i l'
WHO = 'a%2Cb%3Dc:p%3Ae%40n%2Fc%25i%20l@'
# The example of RFC 7677, section 3.
EXAMPLE = {
    'user': 'user', 'password': 'pencil', 'nonce': 'rOprNGfwEbeRWgbNEkqO',
    'first': 'n,,n=user,r=rOprNGfwEbeRWgbNEkqO',
    'told': 'r=rOprNGfwEbeRWgbNEkqO%hvYDpWUa2RaTCAfuxFIlj)hNlF$k0,s=W22ZaJ0SNY7soEsUEjb6gQ==,i=4096',
    'last': 'c=biws,r=rOprNGfwEbeRWgbNEkqO%hvYDpWUa2RaTCAfuxFIlj)hNlF$k0,p=dHzbZapWIk4jUhN+Ute9ytag9zjfMHgsqmmiz7AndVQ=',
    'proof': 'v=6rriTRBi23WpRR/wtup+mMhUZUn/dB5nLTJRsjl95G4=',
}
AUTH, NETWORK, NO_SERVER, OK = 15, 11, 8, 0


class Certificates:
    """Who signs, and what is signed: a server's by its address and by another name, a client's with a password."""

    def __init__(self, folder):
        self.folder = folder
        self.run('req', '-x509', '-newkey', 'ec', '-pkeyopt', 'ec_paramgen_curve:prime256v1', '-nodes', '-days', '2', '-subj', '/CN=signer', '-keyout', 'ca.key', '-out', 'ca.pem')
        for name, more in (('server', 'IP:127.0.0.1'), ('other', 'DNS:elsewhere.test'), ('client', 'DNS:client')):
            self.run('req', '-newkey', 'ec', '-pkeyopt', 'ec_paramgen_curve:prime256v1', '-nodes', '-subj', '/CN=' + name, '-keyout', name + '.key', '-out', name + '.csr')
            with open(self.path(name + '.ext'), 'w') as file:
                file.write('subjectAltName=%s\n' % more)
            self.run('x509', '-req', '-in', name + '.csr', '-CA', 'ca.pem', '-CAkey', 'ca.key', '-CAcreateserial', '-days', '2', '-extfile', name + '.ext', '-out', name + '.pem')
        self.run('ec', '-in', 'client.key', '-aes256', '-passout', 'pass:secret', '-out', 'client.locked')
        with open(self.path('client.both'), 'w') as both:
            for part in ('client.pem', 'client.locked'):
                with open(self.path(part)) as file:
                    both.write(file.read())

    def path(self, name):
        return os.path.join(self.folder, name)

    def run(self, *words):
        subprocess.run(['openssl', *words], cwd=self.folder, check=True, stdout=subprocess.DEVNULL, stderr=subprocess.DEVNULL)

    def tls(self, name='server', *more):
        """The words of servers with this certificate."""
        return ['--tls', self.path(name + '.pem'), self.path(name + '.key'), *more]


def trial(given, options, servers=(), who='', seconds=2.5, before=('elect 0',), program=None):
    """What a load came to: its inserts, what the auditor says, the status, and the last error that the log has."""
    played = Played(given, FAST + options, ['--load', '4', '--pace', '10', '--log', 'LOG'], servers=servers, who=who, before=before, program=program)
    time.sleep(seconds)
    status, _ = played.end()
    inserts, judged, told = played.count('fine'), played.judged(), played.told()
    errors = []
    if os.path.exists(played.log):
        with open(played.log, errors='replace') as log:
            errors = [it.split(' msg=')[1].split(' | ')[0].strip() for it in log if ' msg=' in it]
    return inserts, judged, status, told or (errors[-1] if errors else '')


def compare(given, cases):
    """Plays each case, of which some are to insert and all others not."""
    said, well = [], True
    for name, wanted, words in cases:
        inserts, judged, status, told = trial(given, **words)
        good = (inserts > 10) == wanted and (wanted or inserts == 0) and (legal(judged) if status == 0 else status == 1)
        well = well and good
        said.append('%s%s: %d inserts, status %s, %s%s' % ('' if good else 'WRONG ', name, inserts, status, judged, ', ' + told[:90] if told else ''))
    return well, '; '.join(said)


def examples(given):
    """The example of RFC 7677 comes out, of the client as of the played server; what is changed in it is noticed."""
    it, wrong = EXAMPLE, []

    def client(told=it['told'], proof=it['proof'], password=it['password']):
        return subprocess.run([given.vectors, it['user'], password, it['nonce'], told, proof], stdout=subprocess.PIPE, text=True).stdout.splitlines()

    if client() != [it['first'], it['last'], 'known']:
        wrong.append('the example: %s' % client())
    for name, lines in (('proof', client(proof=it['proof'].replace('6rri', '6rrj'))), ('password', client(password='pencils')), ('error', client(proof='e=other-error'))):
        if lines[-1] != 'unknown':
            wrong.append('another %s: %s' % (name, lines))
    for told in ('r=other%,s=W22ZaJ0SNY7soEsUEjb6gQ==,i=4096', it['told'].replace('4096', '4095'), it['told'].replace('i=4096', 'i=4096x'), it['told'].replace('W22Z', 'W2'),
                 'm=x,' + it['told'], it['told'].split(',')[0], '', it['told'].replace('%hvYDpWUa2RaTCAfuxFIlj)hNlF$k0', '')):
        if len(client(told)) != 2:
            wrong.append('%s: %s' % (told, client(told)))
    keys = Keys(it['password'], __import__('base64').b64decode('W22ZaJ0SNY7soEsUEjb6gQ=='))
    login = Login({it['user']: keys}, '%hvYDpWUa2RaTCAfuxFIlj)hNlF$k0')
    if login.start(it['first'].encode()) != it['told'].encode() or login.go_on(it['last'].encode()) != it['proof'].encode():
        wrong.append('the played server')
    return not wrong, 'wrong: %s' % (wrong or 'none')


def certificates(given):
    """A certificate that is trusted and names the server is taken, any other only where the options say so."""
    made, ca = given.certificates, '&tls=true&tlsCAFile=' + given.certificates.path('ca.pem')
    return compare(given, [
        ('trusted', True, {'options': ca, 'servers': made.tls()}),
        ('no CA', False, {'options': '&tls=true', 'servers': made.tls()}),
        ('no CA, any certificate', True, {'options': '&tls=true&tlsAllowInvalidCertificates=true', 'servers': made.tls()}),
        ('another host', False, {'options': ca, 'servers': made.tls('other')}),
        ('another host, any', True, {'options': ca + '&tlsAllowInvalidHostnames=true', 'servers': made.tls('other')}),
        ('insecure', True, {'options': '&ssl=true&tlsInsecure=true', 'servers': made.tls('other')}),
        ('no TLS there', False, {'options': ca}),
        ('no TLS here', False, {'options': '', 'servers': made.tls()}),
    ])


def clients(given):
    """A server that asks for a certificate gets the client's, whose key has a password."""
    made, ca = given.certificates, '&tls=true&tlsCAFile=' + given.certificates.path('ca.pem')
    servers, key = made.tls('server', '--clients', made.path('ca.pem')), '&tlsCertificateKeyFile=' + made.path('client.both')
    return compare(given, [
        ('shown', True, {'options': ca + key + '&tlsCertificateKeyFilePassword=secret', 'servers': servers}),
        ('not shown', False, {'options': ca, 'servers': servers}),
        ('another password', False, {'options': ca + key + '&tlsCertificateKeyFilePassword=wrong', 'servers': servers}),
        ('no password', False, {'options': ca + key, 'servers': servers}),
        ('no such file', False, {'options': ca + '&tlsCertificateKeyFile=/nowhere', 'servers': servers}),
        ('no such CA', False, {'options': '&tls=true&tlsCAFile=/nowhere', 'servers': servers}),
    ])


def users(given):
    """A user who is known inserts, over TLS and without; nobody else does."""
    asks, both = ['--user', USER, PASSWORD], given.certificates.tls('server', '--user', USER, PASSWORD)
    ca = '&tls=true&tlsCAFile=' + given.certificates.path('ca.pem')
    return compare(given, [
        ('known', True, {'options': '&authSource=admin', 'servers': asks, 'who': WHO}),
        ('known, TLS', True, {'options': ca + '&authMechanism=SCRAM-SHA-256', 'servers': both, 'who': WHO}),
        ('nobody', False, {'options': '', 'servers': asks}),
        ('another password', False, {'options': '', 'servers': asks, 'who': WHO.replace('%20l', '%20m')}),
        ('another user', False, {'options': '', 'servers': asks, 'who': WHO.replace('a%2C', 'b%2C')}),
        ('a password beyond ASCII', False, {'options': '', 'servers': asks, 'who': 'a:%c3%a4@'}),
        ('another mechanism', False, {'options': '&authMechanism=SCRAM-SHA-1', 'servers': asks, 'who': WHO}),
    ])


def witness(given):
    """Another driver, pymongo where it is installed, proves who it is to the same servers over TLS, and they refuse it with another password."""
    if subprocess.run([given.python, '-c', 'import pymongo'], stderr=subprocess.DEVNULL).returncode:
        return True, 'left out'
    made, said = given.certificates, []
    servers = Servers(given.python, 'replica', 1, words=made.tls('server', '--user', USER, PASSWORD))
    servers.do('elect 0')
    script = "import sys, pymongo; c = pymongo.MongoClient(sys.argv[1]); c.test.things.insert_one({}); print('inserted')"
    for who in (WHO, WHO.replace('%20l', '')):
        uri = 'mongodb://%s%s/?%s&tls=true&tlsCAFile=%s&authMechanism=SCRAM-SHA-256' % (who, servers.addresses[0], FAST, made.path('ca.pem'))
        ran = subprocess.run([given.python, '-c', script, uri], stdout=subprocess.PIPE, stderr=subprocess.STDOUT, text=True)
        said.append(ran.stdout.strip().splitlines()[-1][:60])
    servers.close()
    return said[0] == 'inserted' and 'AuthenticationFailed' in said[1], '%s; %s' % tuple(said)


def lies(given):
    """A server that does not know the password, or answers what is none, is not talked to, and is once it does."""
    said, well = [], True
    for lie in ('nonce', 'rounds', 'many-rounds', 'salt', 'signature', 'garbage', 'wide', 'no-payload', 'endless', 'down'):
        played = Played(given, FAST, ['--load', '4', '--pace', '10', '--log', 'LOG'], servers=['--user', USER, PASSWORD], who=WHO, before=('elect 0', 'lie 0 ' + lie))
        time.sleep(1.5)
        before = sum(played.inserts())
        played.servers.do('lie 0 none')
        time.sleep(2)
        after = sum(played.inserts())
        status, _ = played.end()
        good = before == 0 and after > 10 and status == 0 and legal(played.judged())
        well = well and good
        said.append('%s%s: %d, then %d' % ('' if good else 'WRONG ', lie, before, after))
    return well, '; '.join(said)


def told(given):
    """A caller hears why: the code, and the text with the reason."""
    made = given.certificates
    plays = [(['--user', USER, PASSWORD], '', WHO.replace('%20l', ''), AUTH, 'AuthenticationFailed'), (['--user', USER, PASSWORD], '', WHO, OK, ''),
             (made.tls(), '&tls=true', '', NO_SERVER, 'TLS: unable to get local issuer certificate')]
    wrong = []
    for words, options, who, code, text in plays:
        servers = Servers(given.python, 'replica', 1, words=words)
        servers.do('elect 0')
        calls = Calls(given, ['mongodb://%s%s/?%s%s' % (who, servers.addresses[0], FAST, options)])
        heard = calls.ask('run 0 insert')
        if heard['code'] != code or text not in heard['text']:
            wrong.append('%s: %s' % (code, heard))
        status, errors = calls.end()
        servers.close()
        if status:
            wrong.append(errors)
    return not wrong, 'wrong: %s' % (wrong or 'none')


def failover(given):
    """A failover under load, over TLS with a user: kills, a freeze in the handshake, resets and an election."""
    played = Played(given, FAST + '&tls=true&tlsCAFile=' + given.certificates.path('ca.pem'), ['--load', '16', '--pace', '5', '--log', 'LOG'],
                    servers=given.certificates.tls('server', '--user', USER, PASSWORD), who=WHO)
    time.sleep(2)
    for command in ('kill 0', 'elect 1', 'start 0', 'reset 1', 'freeze 1', 'elect 2', 'reset 2', 'thaw 1', 'stepdown', 'elect 0', 'fail 0 11600 3'):
        played.servers.do(command)
        time.sleep(0.7)
    before = sum(played.inserts())
    time.sleep(2)
    after = sum(played.inserts())
    status, took = played.end()
    judged = played.judged()
    return after > before + 10 and status == 0 and legal(judged), '%d inserts, %d in the last 2 s; status %s after %.2f s; %s' % (after, after - before, status, took, judged)


def no_memory(given):
    """Allocations that are refused, one in so many, also those of OpenSSL, of which a handshake makes thousands: no pool is cleared for that, and the log is legal."""
    said, well = [], True
    with tempfile.TemporaryDirectory() as folder:
        shim = os.path.join(folder, 'shim.so')
        subprocess.run(['cc', '-O1', '-shared', '-fPIC', os.path.join(TOP, 'checks', 'live', 'shim.c'), '-o', shim, '-ldl'], check=True)
        for rule in ('random:10000', 'random:30000', '20000/9973', '3000/997'):
            played = Played(given, FAST + '&tls=true&tlsCAFile=' + given.certificates.path('ca.pem'), ['--load', '8', '--pace', '5', '--log', 'LOG'],
                            servers=given.certificates.tls('server', '--user', USER, PASSWORD), who=WHO, env={'LD_PRELOAD': shim, 'SHIM_MALLOC': rule})
            time.sleep(4)
            status, _ = played.end()
            fine, cleared, judged = played.count('fine'), played.count('pools cleared'), played.judged()
            good = status == 0 and fine > 10 and cleared == 0 and legal(judged) or status in (1, 3) and fine == 0
            well = well and good
            said.append('%s%s: %d inserts, %d pools cleared, status %s, %s %s' % ('' if good else 'WRONG ', rule, fine, cleared, status, judged, played.told()))
    return well, '; '.join(said)


def frozen(given):
    """A server that takes connections and never answers the handshake of TLS: it is timed out, and the program ends at once."""
    played = Played(given, FAST + '&tls=true', ['--load', '4', '--log', 'LOG'], servers=given.certificates.tls(), before=('elect 0', 'clog 0', 'clog 1', 'clog 2'))
    time.sleep(3)
    status, took = played.end()
    return status == 0 and took < 3 and legal(played.judged()), 'status %s after %.2f s' % (status, took)


def without(given):
    """Built without OpenSSL: TLS and users are refused, and all else goes on."""
    return compare(given, [
        ('no TLS', True, {'options': '', 'program': given.without}),
        ('TLS', False, {'options': '&tls=true', 'program': given.without}),
        ('a user', False, {'options': '', 'who': WHO, 'program': given.without}),
    ])


SCENARIOS = {it.__name__: it for it in (examples, certificates, clients, users, witness, lies, told, failover, no_memory, frozen, without)}


def main():
    built = os.path.join(TOP, 'examples', 'live', 'out')
    parser = argparse.ArgumentParser(description=__doc__, formatter_class=argparse.RawDescriptionHelpFormatter)
    for name, program in (('program', 'mdb_live'), ('without', 'mdb_live-without'), ('calls', 'calls'), ('vectors', 'vectors')):
        parser.add_argument('--' + name, default=os.path.join(built, program))
    parser.add_argument('--auditor', default=os.path.join(TOP, 'crates', 'mdb_auditor', 'out', 'mdb_auditor'))
    parser.add_argument('--python', default='/usr/bin/python3')
    parser.add_argument('names', nargs='*')
    given = parser.parse_args()
    os.environ.setdefault('TSAN_OPTIONS', 'suppressions=' + os.path.join(HERE, 'openssl.supp'))
    failed = 0
    with tempfile.TemporaryDirectory() as folder:
        given.certificates = Certificates(folder)
        for name, play in SCENARIOS.items():
            if given.names and name not in given.names:
                continue
            try:
                well, said = play(given)
            except (OSError, ValueError, IndexError, RuntimeError, subprocess.SubprocessError) as why:
                well, said = False, repr(why)
            failed += not well
            print('%s %s: %s' % ('ok' if well else 'FAILED', name, said), flush=True)
    return 1 if failed else 0


if __name__ == '__main__':
    sys.exit(main())
