# %% [markdown]
# # The slow stage of a pipeline
#
# A notebook as a script: an editor that knows `# %%` runs it cell by cell, jupytext makes a notebook of it, and
# `PYTHONPATH=python python3 examples/notebook.py` runs it as a whole. Below each cell stands what it prints.
#
# What to look at: the period follows the slowest stage, until stage 4 is as fast as the others. With a stage 4 that is faster still nothing is won.

# %% A pipeline of six stages with a source and a sink. A netlist shows its statements.
from nesthrim import Netlist, Session

n = Netlist(horizon=400)
r, ack = n.wires("r", "ack")
stages = n.pipeline("s", 6, req=r, ack=ack, delay=2)
n.not_("source", stages[0].q, out=r, delay=1)
n.buf("sink", stages[-1].q, out=ack, delay=3)
n.module("s4").delay = 12
n

# %% Waves show themselves, and the program draws them with what is wrong in them.
n.waves()

# %%
n.svg(0, 100)

# %% How often an event comes out, and which modules set the pace.
print(n.measure(100).wire("s6.q").period)
for part in n.path("s6.q").rows()[:2]:
    print(part)
#> 14.0
#> {'module': 's4', 'units': 324, 'steps': 27}
#> {'module': 's3', 'units': 54, 'steps': 27}

# %% What if stage 4 were faster? Each change goes to one session, which computes only what it reaches.
with Session(n) as session:
    for delay in (12, 8, 4, 2, 1):
        n.module("s4").delay = delay
        session.to(n)
        print(delay, session.measure(100).wire("s6.q").period, session.latency("r", "s6.q", 100).most)
#> 12 14.0 53
#> 8 10.0 37
#> 4 6.0 21
#> 2 5.0 19
#> 1 5.0 20

# %% Who waits at the end. `pandas.DataFrame(n.waits().rows())` shows the same as a table.
for row in n.waits().rows():
    print(*row.values())
#> s3 C waits for s4_q None 399
#> s6 C waits for ack None 399
