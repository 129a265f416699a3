"""Both ends of a T=1 dialogue (ISO/IEC 7816-3, clause 11) as machines, and an exhaustive search
over all that a line can do.

The machines are written from the rules, not from the proved definitions. They can also break rules:
the search then shows what a broken rule leads to.

Blocks: ('I', ns, more, symbols) ('R', nr, error) ('S', kind, 'q' or 'p', value), q for a request.
An error of R is 0, 1 for a wrong EDC or 2 for another one. The line
delivers a block, damages it ('bad': the LRC shows it), loses it (the terminal: 'timeout'; the card:
nothing), delays it until after the terminal's time-out, or doubles it."""

import graphlib
import sys
from collections import namedtuple

# The terminal.
# - mode: start ifs send recv resync done broken
# - k: the command; i: its block
# - air: the last block of the command may have reached the card
# - res: the results so far, one for each command
T = namedtuple('T', 'mode k i got ns nr fails resy wtx air ifsd res beside')
# The card.
# - vr: the next N(S) of the terminal; vs: N(S) of the card's next I-block
# - coll: the received part of a command
# - ans: the blocks of the response (None: none yet); j: the latest sent
# - pend: the card's S(request) that waits for its response; busy: WTX requests still to make
# - ran: the commands that were carried out
# `beside`, of both ends, is the state of another end that makes the same steps, if any.
C = namedtuple('C', 'vr vs coll ans j pend busy ifsd ran beside')
# The commands, each by the number of its blocks and that of its response's symbols. Then
# - limit: the terminal gives up after n receptions without progress
# - wtx_limit: the most S(WTX request) of a command; wtx_asks: those that the card makes
# - most: the most symbols of a response: a longer one is a fault
# - card_ifs: the card sends S(IFS request) before it answers the first I-block
# what the line does:
# - budget: at most n bad blocks between two steps, or None
# - late: it delays blocks; double_down, double_up: it doubles a block to the card, to the terminal
# and rules that a test breaks:
# - nak_counts: R with its own number is a reception without progress
# - resends: after it gives up, the terminal sends S(RESYNCH request), and the command again
# - sticky: once the last block was sent it never again says 'not carried out'
# - timeout_i: it repeats its I-block after a time-out
# - goes_on: it begins the next command even after it has given up
# - tests_ns: the card tests N(S) of an I-block
# `ends` has the functions `terminal`, `card` and `breaches`.
Cfg = namedtuple('Cfg', """cmds limit wtx_limit wtx_asks most card_ifs budget late double_down
    double_up nak_counts resends sticky timeout_i goes_on tests_ns ends""")
RIGHT = Cfg(None, 5, 4, 1, 100, False, None, False, False, False, True, False, True, False, False,
            True, sys.modules[__name__])

SMALL, LARGE = 1, 2          # information field sizes, in symbols

def command(cfg, k):
    return [('c', k, i) for i in range(cfg.cmds[k][0])]

def response(cfg, cmd):      # a function of what was carried out
    k = cmd[0][1]
    return tuple(('r', k, i, len(cmd)) for i in range(cfg.cmds[k][1]))

def cut(symbols, size):
    return tuple(symbols[a:a + size] for a in range(0, len(symbols), size)) or ((),)

# ---- the terminal
FIRST_T = T('start', 0, 0, (), 0, 0, 0, 0, 0, False, SMALL, (), None)

def sends_i(cfg, t):
    cmd = command(cfg, t.k)
    last = t.i == len(cmd) - 1
    return t._replace(air=t.air or last), ('I', t.ns, int(not last), (cmd[t.i],))

def begin(cfg, t):           # the next command, if there is one
    if t.k == len(cfg.cmds):
        return t._replace(mode='done'), None
    return sends_i(cfg, t._replace(mode='send', i=0, got=(), fails=0, resy=0, wtx=0, air=False))

def answers(cfg, t, result):
    return begin(cfg, t._replace(res=t.res + (result,), k=t.k + 1, got=(), fails=0, resy=0, wtx=0,
        air=False, i=0))

def fault(t):
    return ('fault', 'carried out' if t.got else 'unknown' if t.air else 'not carried out')

def breaks(t):
    return t._replace(mode='broken', res=t.res + (fault(t),), fails=0, i=0, air=False, got=()), None

def gives_up(cfg, t):
    if cfg.resends and t.mode != 'resync':
        return t._replace(mode='resync', fails=0), ('S', 'RESYNCH', 'q', 0)
    return answers(cfg, t, fault(t)) if cfg.goes_on else breaks(t)

def no_progress(cfg, t, error):
    t = t._replace(fails=t.fails + 1)
    if t.fails < cfg.limit:
        return t, {'ifs': ('S', 'IFS', 'q', LARGE), 'resync': ('S', 'RESYNCH', 'q', 0)}.get(
            t.mode, ('R', t.nr, error))
    return begin(cfg, t) if t.mode == 'ifs' else gives_up(cfg, t)

def terminal(cfg, t, e):
    """-> (state, block or None, progress)"""
    if t.mode == 'start':
        return t._replace(mode='ifs', ifsd=LARGE), ('S', 'IFS', 'q', LARGE), True
    if t.mode in ('done', 'broken'):
        return t, None, False
    b = None if e in ('bad', 'timeout') else e
    error = 1 if e == 'bad' else 2
    if b and b[0] == 'I' and len(b[3]) > t.ifsd:       # LEN beyond IFSD: invalid
        b = None
    if t.mode == 'ifs':
        if b == ('S', 'IFS', 'p', LARGE):
            return (*begin(cfg, t), True)
        return (*no_progress(cfg, t, error), False)
    if t.mode == 'resync':
        if b != ('S', 'RESYNCH', 'p', 0):
            return (*no_progress(cfg, t, error), False)
        t = t._replace(ns=0, nr=0, fails=0, i=0)
        if t.resy == 2:
            return (*breaks(t), True)
        return (*sends_i(cfg, t._replace(mode='send', resy=t.resy + 1, got=())), True)
    if b and b[0] == 'S' and b[2] == 'q' and b[1] in ('WTX', 'IFS'):       # rules 3, 4
        if t.wtx >= cfg.wtx_limit:
            return (*gives_up(cfg, t), False)
        return t._replace(wtx=t.wtx + 1), ('S', b[1], 'p', b[3]), False
    last = t.i == len(command(cfg, t.k)) - 1
    if t.mode == 'send' and b and b[0] == 'R':
        if b[1] == t.ns:
            # the card asks for the last block: it had not received it, but now it is in the air
            # again
            f = t.fails + cfg.nak_counts
            if f >= cfg.limit:
                return (*gives_up(cfg, t._replace(air=t.air and (cfg.sticky or not last))), False)
            return (*sends_i(cfg, t._replace(fails=f, air=t.air and cfg.sticky)), False)
        if not last:
            return (*sends_i(cfg, t._replace(i=t.i + 1, ns=1 - t.ns, fails=0)), True)
    elif t.mode == 'send' and e == 'timeout' and cfg.timeout_i and t.fails + 1 < cfg.limit:
        return (*sends_i(cfg, t._replace(fails=t.fails + 1)), False)
    elif b and b[0] == 'I' and b[1] == t.nr and (last or t.mode == 'recv'):
        if len(t.got) + len(b[3]) > cfg.most:
            return (*gives_up(cfg, t), False)
        t = t._replace(ns=t.ns ^ (t.mode == 'send'), nr=1 - t.nr, got=t.got + b[3], fails=0)
        if b[2]:
            return t._replace(mode='recv'), ('R', t.nr, 0), True
        return (*answers(cfg, t, ('ok', t.got)), True)
    return (*no_progress(cfg, t, error), False)

# ---- the card
FIRST_C = C(0, 0, (), None, 0, None, 0, SMALL, (), None)

def c_iblock(c):
    return ('I', 1 - c.vs, int(c.j < len(c.ans) - 1), c.ans[c.j])

def c_answer(c):             # the first block of the response
    c = c._replace(j=0, vs=1 - c.vs)
    return c, c_iblock(c)

def c_again(c, error=2):
    return c, c.pend or ('R', c.vr, error)

def card(cfg, c, b):
    """-> (state, block or None)"""
    if b == 'bad':
        return c_again(c, 1)
    if b[0] == 'S':
        if b[1] == 'RESYNCH' and b[2] == 'q':
            fresh = FIRST_C._replace(busy=cfg.wtx_asks, ran=c.ran, beside=c.beside)
            return fresh, ('S', 'RESYNCH', 'p', 0)
        if b[1] == 'IFS' and b[2] == 'q':
            return c._replace(ifsd=b[3]), ('S', 'IFS', 'p', b[3])
        if b[2] == 'p' and c.pend and b[1] == c.pend[1]:
            if c.busy:
                return c._replace(busy=c.busy - 1), c.pend
            return c_answer(c._replace(pend=None))
        return c_again(c)
    if c.pend:
        return c, c.pend
    if b[0] == 'R':
        if c.ans is not None and b[1] == 1 - c.vs:
            return c, c_iblock(c)                      # send it again
        if c.ans is not None and c.j < len(c.ans) - 1:
            c = c._replace(j=c.j + 1, vs=1 - c.vs)
            return c, c_iblock(c)
        # a gap in the rules, if its response was complete: it asks
        return c, ('R', c.vr, 2)
    # an I-block
    if b[1] != c.vr and cfg.tests_ns or (c.ans is not None and c.j < len(c.ans) - 1):
        return c, ('R', c.vr, 2)
    coll = (() if c.ans is not None else c.coll) + b[3]
    c = c._replace(vr=1 - b[1], coll=coll, ans=None, j=0)
    if b[2]:
        return c, ('R', c.vr, 0)
    c = c._replace(ran=c.ran + (coll,), coll=(), ans=cut(response(cfg, coll), c.ifsd))
    if cfg.card_ifs and len(c.ran) == 1:
        request, busy = ('S', 'IFS', 'q', SMALL), 0
    elif cfg.wtx_asks:
        request, busy = ('S', 'WTX', 'q', 2), cfg.wtx_asks - 1
    else:
        return c_answer(c)
    return c._replace(pend=request, busy=busy), request

# ---- what both must keep to
def breaches(cfg, t, c):
    """The claims that these states break, each by its number."""
    sent = [tuple(command(cfg, k)) for k in range(len(cfg.cmds))]
    # (i) the card carried out commands that were sent, in order, each at most once
    begun = iter(sent[:t.k + 1])
    if not all(ran in begun for ran in c.ran):
        yield '(i)'
    # (v) without RESYNCH: the card carried out the first commands, those with an answer and at
    # most one more
    oks = sum(1 for r in t.res if r[0] == 'ok')
    in_order = list(c.ran) == sent[:len(c.ran)] and oks <= len(c.ran) <= oks + 1
    if not cfg.resends and not in_order:
        yield '(v)'
    # (ii) each answer is the card's, which carried out the command once
    for k, r in enumerate(t.res):
        times = c.ran.count(sent[k])
        if (r[0] == 'ok' and (times != 1 or tuple(r[1]) != response(cfg, sent[k]))
                or r == ('fault', 'not carried out') and times != 0
                or r == ('fault', 'carried out') and times == 0):
            yield '(ii)'
    # (iii) with few bad blocks each command has an answer
    gave_up = t.mode == 'broken' or t.mode == 'done' and len(t.res) > oks
    if cfg.budget is not None and gave_up:
        yield '(iii)'

def nexts(cfg, state):
    """The states after this one. A state is terminal, card, block for the card or None, blocks for
    the terminal (at most two), and the number of bad blocks left."""
    t, c, down, queue, bud = state
    terminal, card = cfg.ends.terminal, cfg.ends.card
    may = cfg.budget is None or bud > 0
    less = bud - 1 if cfg.budget is not None else 0

    def feed(e, queue, bud):
        t2, out, progress = terminal(cfg, t, e)
        return t2, c, out, queue, cfg.budget if progress and cfg.budget is not None else bud

    if t.mode in ('done', 'broken'):
        return
    if down is not None:                                # a block on its way to the card
        cases = [(card(cfg, c, down), bud)]
        if may:
            cases += [(card(cfg, c, 'bad'), less), ((c, None), less)]
        for (c2, out), left in cases:
            q = queue + ((out,) if out else ())
            if len(q) <= 2:
                yield t, c2, None, q, left
        if cfg.double_down and may and not queue:
            c2, first_out = card(cfg, c, down)
            c2, out = card(cfg, c2, down)
            yield t, c2, None, tuple(b for b in (first_out, out) if b), less
    elif not queue:
        yield feed('timeout', queue, bud)
    else:
        yield feed(queue[0], queue[1:], bud)
        if may:
            yield feed('bad', queue[1:], less)
            yield t, c, None, queue[1:], less           # lost
            if cfg.double_up and len(queue) == 1:
                yield feed(queue[0], queue, less)
            if cfg.late and len(queue) == 1:
                yield feed('timeout', queue, less)

def search(cfg, most=400000):
    """The claims that some dialogue breaks."""
    t, out, _ = cfg.ends.terminal(cfg, FIRST_T, 'start')
    graph, todo = {}, [(t, FIRST_C, out, (), cfg.budget or 0)]
    while todo:
        state = todo.pop()
        if state not in graph:
            graph[state] = list(nexts(cfg, state))
            todo += graph[state]
            if len(graph) > most:
                raise ValueError('too many states')
    found = {it for t, c in {state[:2] for state in graph} for it in cfg.ends.breaches(cfg, t, c)}
    # (iv) a cycle: the dialogue never ends
    try:
        graphlib.TopologicalSorter(graph).prepare()
    except graphlib.CycleError:
        found.add('(iv)')
    return found

# Lists of commands: the blocks of each, and the symbols of its response.
ONE = [[(a, b)] for a in (1, 2, 3) for b in (1, 2, 3)]
TWO = [[(a, b), (c, d)] for a in (1, 2) for b in (1, 2) for c in (1, 2) for d in (1, 2)]
THREE = [[(1, 1), (1, 1), (1, 1)], [(2, 1), (1, 2), (1, 1)], [(1, 2), (2, 2), (2, 1)]]
