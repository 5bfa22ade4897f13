"""The scenarios: servers, options, and after each command what is to be described. The views are read off the tables of the standard (SDAM), not off a
program. `With 0=P 1=S` is ReplicaSetWithPrimary with server 0 as RSPrimary and server 1 as RSSecondary; `No` is ReplicaSetNoPrimary. `begin` is no command:
the view after the opening. `before` is done before any driver is there. In `seeds`, #0 is the address of server 0 and @0 its port."""

RS = 'replicaSet=rs&heartbeatFrequencyMS=500&connectTimeoutMS=500'
ANY = 'heartbeatFrequencyMS=500&connectTimeoutMS=500'
ALL = 'With 0=P 1=S 2=S'
LOST = 'With 0=P 1=S 2=U'


def replica(name, steps, before=('elect 0',), count=3, **more):
    return {'name': name, 'kind': 'replica', 'count': count, 'options': RS, 'before': list(before), 'steps': steps, **more}


def damaged(kinds):
    """Each damage makes the server unknown, and its end brings it back."""
    steps = [('begin', ALL)]
    for kind in kinds:
        steps += [('damage 2 ' + kind, LOST), ('damage 2 none', ALL)]
    return steps


SCENARIOS = [
    {'name': 'standalone', 'kind': 'standalone', 'count': 1, 'options': ANY,
     'steps': [('begin', 'Single 0=T'), ('kill 0', 'Single 0=U'), ('start 0', 'Single 0=T')]},
    {'name': 'standalone-among-seeds', 'kind': 'standalone', 'count': 2, 'options': ANY, 'steps': [('begin', 'Unknown')]},
    {'name': 'standalone-for-a-set', 'kind': 'standalone', 'count': 1, 'options': RS, 'steps': [('begin', 'No')]},
    replica('discovery', [('begin', ALL)], seeds='#1', options=ANY + '&directConnection=false'),
    replica('elections', [('begin', 'No 0=S 1=S 2=S'), ('elect 0', ALL), ('elect 1', 'With 0=S 1=P 2=S'), ('elect 2', 'With 0=S 1=S 2=P')], before=()),
    replica('step-down', [('begin', ALL), ('stepdown', 'No 0=S 1=S 2=S'), ('elect 0', ALL)]),
    replica('kill-the-primary', [('begin', ALL), ('kill 0', 'No 0=U 1=S 2=S'), ('elect 1', 'With 0=U 1=P 2=S'), ('start 0', 'With 0=S 1=P 2=S')]),
    replica('kill-a-secondary', [('begin', ALL), ('kill 2', 'With 0=P 1=S 2=U'), ('start 2', ALL)]),
    replica('kill-all', [('begin', ALL), ('kill 0', 'No 0=U 1=S 2=S'), ('kill 1', 'No 0=U 1=U 2=S'), ('kill 2', 'No 0=U 1=U 2=U'), ('start 1', 'No 0=U 1=S 2=U')]),
    replica('freeze-the-primary', [('begin', ALL), ('freeze 0', 'No 0=U 1=S 2=S'), ('elect 2', 'With 0=U 1=S 2=P'), ('thaw 0', 'With 0=S 1=S 2=P')]),
    replica('connect-time-out', [('begin', ALL), ('clog 2', LOST), ('start 2', ALL), ('clog 0', 'No 0=U 1=S 2=S'), ('elect 1', 'With 0=U 1=P 2=S'), ('start 0', 'With 0=S 1=P 2=S')]),
    replica('slow', [('begin', ALL), ('slow 1 200', ALL), ('elect 1', 'With 0=S 1=P 2=S'), ('slow 1 0', 'With 0=S 1=P 2=S')]),
    replica('reset', [('begin', ALL), ('reset 0', ALL), ('reset 1', ALL), ('elect 1', 'With 0=S 1=P 2=S')]),
    replica('reconfigure', [('begin', 'With 0=P 1=S'), ('reconfigure 0,1,2', ALL), ('reconfigure 0,2', 'With 0=P 2=S'), ('reconfigure 0,1', 'With 0=P 1=S')],
            before=('reconfigure 0,1', 'elect 0'), seeds='#0,#1'),
    replica('hidden', [('begin', ALL), ('hide 2', 'With 0=P 1=S'), ('show 2', ALL)]),
    replica('arbiter', [('begin', 'With 0=P 1=S 2=A'), ('role 2 member', ALL), ('elect 2', 'With 0=S 1=S 2=P')], before=('role 2 arbiter', 'elect 0')),
    replica('another-set', [('begin', 'No')], options='replicaSet=other&' + ANY),
    replica('two-primaries', [('begin', ALL), ('crown 1', 'With 0=U 1=P 2=S'), ('elect 1', 'With 0=S 1=P 2=S')]),
    replica('ghost', [('begin', 'Unknown 0=G'), ('role 0 member', 'No 0=S'), ('elect 0', 'With 0=P')], before=('role 0 ghost',), count=1, options=ANY + '&directConnection=false'),
    replica('direct', [('begin', 'Single 1=S'), ('elect 1', 'Single 1=P'), ('kill 1', 'Single 1=U'), ('start 1', 'Single 1=S')], seeds='#1',
            options='directConnection=true&' + ANY),
    # Nothing listens on the first of the two addresses, ::1.
    replica('a-name-of-two-addresses', [('begin', 'Single two.live.test:@0=P'), ('stepdown', 'Single two.live.test:@0=S')], seeds='two.live.test:@0', hosts=True,
            options='directConnection=true&' + ANY),
    {'name': 'an-address-of-IPv6', 'kind': 'standalone', 'count': 1, 'options': ANY, 'six': True, 'steps': [('begin', 'Single 0=T'), ('role 0 router', 'Single 0=M'), ('role 0 standalone', 'Single 0=T')]},
    {'name': 'routers', 'kind': 'router', 'count': 3, 'options': ANY,
     'steps': [('begin', 'Sharded 0=M 1=M 2=M'), ('kill 1', 'Sharded 0=M 1=U 2=M'), ('start 1', 'Sharded 0=M 1=M 2=M'), ('role 2 standalone', 'Sharded 0=M 1=M')]},
    {'name': 'load-balancer', 'kind': 'balancer', 'count': 1, 'options': 'loadBalanced=true', 'without': ('pymongo',),
     'steps': [('begin', 'LoadBalanced 0=L'), ('kill 0', 'LoadBalanced 0=L'), ('start 0', 'LoadBalanced 0=L')]},
    replica('damaged-lengths', damaged(['short', 'negative', 'huge', 'overlong'])),
    replica('damaged-heads', damaged(['opcode', 'answers', 'half', 'stall', 'garbage'])),
    replica('damaged-replies', damaged(['nothing', 'deep', 'field'])),
    {'name': 'seed-list', 'kind': 'router', 'count': 3, 'options': ANY, 'seeds': 'cluster.live.test', 'without': ('pymongo', 'go'), 'hosts': True,
     'names': {'records': ['a.live.test:@0', 'b.live.test:@1']},
     'steps': [('begin', 'Sharded a.live.test:@0=M b.live.test:@1=M'), ('names b.live.test:@1 c.live.test:@2', 'Sharded b.live.test:@1=M c.live.test:@2=M'),
               ('names x.other.test:4', 'Sharded b.live.test:@1=M c.live.test:@2=M'), ('names x.other.test:4 a.live.test:@0', 'Sharded a.live.test:@0=M')]},
    {'name': 'seed-list-of-a-set', 'kind': 'replica', 'count': 3, 'options': ANY, 'seeds': 'cluster.live.test', 'without': ('pymongo', 'go'), 'hosts': True, 'before': ['elect 0'],
     'names': {'records': ['a.live.test:@0', 'b.live.test:@1'], 'txt': 'replicaSet=rs&authSource=admin'},
     'steps': [('begin', ALL), ('names b.live.test:@1', ALL), ('elect 1', 'With 0=S 1=P 2=S')]},
]

STREAMED = 'it does not compare the responseTo of streamed replies'

# (scenario, command, witness): the views of the witness that are accepted, separated by ` / `, and why. The witnesses are pymongo 3.11 and the Go driver 1.8.4.
DIFFERENCES = {
    ('standalone-among-seeds', 'begin', 'go'): ('Single 0=T / Single 1=T', 'it counts the servers that are left, where the standard counts the seeds'),
    ('damaged-heads', 'damage 2 answers', 'pymongo'): (ALL, STREAMED),
    ('damaged-heads', 'damage 2 answers', 'go'): (ALL, STREAMED),
    ('damaged-replies', 'damage 2 nothing', 'pymongo'): (ALL, STREAMED),
    ('damaged-replies', 'damage 2 nothing', 'go'): (ALL, STREAMED),
    ('damaged-replies', 'damage 2 field', 'pymongo'): (ALL, 'it does not look at the types of fields'),
}
