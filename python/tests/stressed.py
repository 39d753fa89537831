"""Netlists for the tests of `stress`, each small enough to know its answer by hand or by brute force."""

from __future__ import annotations

from nesthrim import FifoStage, Netlist
from nesthrim.builder import Builder
from nesthrim.wires import Wire

# p stands once on the way of the data and twice on one way of the request: 9 and 11 units are right, and 10 aren't
INSIDE = """
horizon 100
wire s 1 0
wire fb 1 0
wire x 1 0
wire y 1 0
wire dot 1 0
wire blank 1 0
wire sb 1 0
wire r 1 0
wire k 1 0
wire d 1 0
module m XOR : s fb > x/1
module p BUF : x > y/9
module t TOGGLE : y > dot/1 blank/1
module f BUF : dot > fb/1
module dd BUF : dot > d/13
module long BUF : s > sb/25
module join C 0 0 0 : blank sb > r/1
module recv BUF : r > k/3
bundle b r k d 1
stim s 1=1
"""

# a source whose register takes its data before they are new, if it is slow, and a stage behind it: no rule of `check` is broken then
GAP = """
horizon 160
wire r 1 0
wire k 1 0
wire d 16 0
wire f1_cap 1 0
wire f1_cd 1 0
wire f1_pd 1 0
wire f1_r 1 0
wire f1_d 16 0
wire source_idle 1 1
wire source_held 16 0
wire source_more 16 1
module f1 C 0 0 1 : r f1_pd > f1_cap/1
module f1_reg REG 0 : d f1_cap k > f1_d/3 f1_cd/3 f1_pd/3
module f1_match BUF : f1_cd > f1_r/6
module source_request NOT : f1_cd > r/1
module source_phase NOT : r > source_idle/1
module source_now REG 0 : source_held r f1_cd > d/1 -/1 -/1
module source_next ADDC 1 : d > source_more/1
module source_after REG 0 : source_more f1_cd source_idle > source_held/1 -/1 -/1
module sink BUF : f1_r > k/11
bundle f1 f1_r k f1_d 1
"""

# two words that come together are added; the sum has to stand before the request
ADDED = """
horizon 60
wire s 1 0
wire a 8 0
wire b 8 0
wire a2 8 0
wire b2 8 0
wire sum 8 0
wire r 1 0
wire k 1 0
module da BUF : a > a2/3
module db BUF : b > b2/3
module add SUM : a2 b2 > sum/4
module match BUF : s > r/10
module sink BUF : r > k/5
bundle t r k sum 1
stim a 5=3 35=9
stim b 5=4 35=7
stim s 5=1 35=0
"""

# two requests for one resource, the second 20 units behind the first
ARBITRATED = """
horizon 120
wire s 1 0
wire r1 1 0
wire r2 1 0
wire g1 1 0
wire g2 1 0
wire d1 1 0
wire d2 1 0
module one BUF : s > r1/20
module two BUF : s > r2/30
module turn ARBITER : r1 r2 d1 d2 > g1/2 g2/2
module use1 BUF : g1 > d1/5
module use2 BUF : g2 > d2/5
stim s 1=1
"""

# two calls of one procedure, the second one 3 units behind the end of the first
CALLED = """
horizon 120
wire s 1 0
wire r1 1 0
wire r2 1 0
wire d 1 0
wire r 1 0
wire d1 1 0
wire d2 1 0
module one BUF : s > r1/10
module two BUF : s > r2/30
module use CALL : r1 r2 d > r/2 d1/2 d2/2
module work BUF : r > d/15
stim s 1=1
"""

# an event that is steered by a level which is set 4 units before
STEERED = """
horizon 60
wire s 1 0
wire a 1 0
wire way 1 0
wire yes 1 0
wire no 1 0
module go BUF : s > a/24
module set BUF : s > way/20
module steer SELECT : a way > yes/1 no/1
stim s 1=1
"""

# events that go two ways in turn, and are merged
MERGED = """
horizon 80
wire s 1 0
wire dot 1 0
wire blank 1 0
wire p 1 0
wire q 1 0
wire y 1 0
module turn TOGGLE : s > dot/2 blank/2
module one BUF : dot > p/20
module two BUF : blank > q/10
module merge XOR : p q > y/1
stim s 1=1 21=0
"""


# an input of a C that begins as if it had come: its first event has to come behind that of the other one
BEGUN = """
horizon 60
wire s 1 0
wire a 1 0
wire b 1 0
wire y 1 0
module one BUF : s > a/10
module two BUF : s > b/14
module meet C 0 0 1 : a b > y/1
stim s 1=1
"""


# two events that meet, and a merge with a third one
MET = """
horizon 60
wire s 1 0
wire a 1 0
wire b 1 0
wire y 1 0
wire z 1 0
wire x 1 0
module one BUF : s > a/11
module two BUF : s > b/12
module meet C 0 0 0 : a b > y/1
module three BUF : s > z/22
module merge XOR : y z > x/1
stim s 1=1
"""

# a register that closes 4 units before its data change
CAPTURED = """
horizon 60
wire s 1 0
wire d 1 0
wire c 1 0
wire p 1 0
wire q 1 0
module far BUF : s > d/29
module near BUF : s > c/25
module reg REG 0 : d c p > q/1 -/1 -/1
stim s 1=1
"""


# data that change 4 units behind the acknowledge of the data before
BUSY = """
horizon 60
wire s 1 0
wire r 1 0
wire k 1 0
wire d 1 0
module ask BUF : s > r/10
module take BUF : r > k/5
module next BUF : r > d/9
bundle b r k d 0
stim s 1=1
"""


def counter(n: Builder, name: str, req: Wire, ack: Wire, data: Wire, pause: int = 4) -> None:
    """A source that sends the next number some units after the one before was acknowledged."""
    s = n.part(name)
    idle = s.wire("idle", level=1)
    held, more = s.wire("held", data.width, data.level), s.wire("more", data.width, data.level + 1)
    s.not_("request", ack, out=req, delay=pause)
    s.not_("phase", req, out=idle)
    s.reg("now", held, req, ack, q=data)
    s.addc("next", data, 1, out=more)
    s.reg("after", more, ack, idle, q=held, init=data.level)


def accumulator(horizon: int = 300) -> Netlist:
    """A source of numbers, and their sum, which is kept in a loop of two registers that take turns."""
    n = Netlist(horizon=horizon)
    req, ack, data = n.wire("r"), n.wire("k"), n.wire("d", width=8)
    stage = n.fifo("f", 1, req, ack, data, FifoStage(match=6))[0]
    counter(n, "source", req, stage["cd"], data)
    total, summed, kept = n.wire("total", 8), n.wire("summed", 8), n.wire("kept", 8)
    idle = n.wire("idle", level=1)
    n.sum("add", stage["d"], total, out=summed, delay=3)
    n.not_("phase", stage["r"], out=idle)
    n.reg("one", summed, stage["r"], ack, q=kept)
    n.reg("two", kept, ack, idle, q=total)
    n.buf("sink", stage["r"], out=ack, delay=12)
    return n


def fifo(stages: int, horizon: int, slow: int = 0, match: int = 12) -> Netlist:
    """A FIFO with a source and a sink. Stage number `slow`, if that isn't 0, has logic of 12 units."""
    n = Netlist(horizon=horizon)
    req, ack, data = n.wire("r"), n.wire("k"), n.wire("d", width=16)
    made = [FifoStage(match=4, logic=4, add=1, setup=1) for _ in range(stages)]
    if slow:
        made[slow - 1] = FifoStage(match=match, logic=12, add=1, setup=1)
    parts = n.fifo("f", stages, req, ack, data, made)
    counter(n, "source", req, parts[0]["cd"], data)
    n.buf("sink", parts[-1]["r"], out=ack, delay=30)
    return n
