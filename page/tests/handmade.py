"""Small reports, written by hand, for what the examples do not have: an open set, a reused subtree, and panels that were lost."""

# The graph and the log of "A search over three rounds" in `docs/model.md`, with a budget of one split.
THREE_ROUNDS = {
    "tfpg": """tfpg 1
mode N
failure F 1
or A watch 0
or E watch 0
edge F A 1 3 *
edge F E 9 9 *
end
""",
    "log": "10 silent A\n10 alarm E\n11 tick\n",
    "report": """report 2 k 1 doubt 0 budget 1
round 1 1 10
ranked 0 cost 0 robust 1/1 set -
counts ranked 1 covered 1 rejected 0 open 0
panel 1 lost
panel 2 memory
round 2 2 10
hyp 0
cycle 2
why upto 2
why unreached E 10
hyp 1
split ormay E 0 10
cycle 2
why pick 1 1
why from 2
cycle 2
why pick 1 1
why upto 2
open 1 set F
rejected 0 set -
counts ranked 0 covered 0 rejected 1 open 1
round 3 3 11
hyp 1
split ormust F A 0 11
cycle 3
why pick 2 1
why pick 1 1
why upto 2
cycle 4
why quiet 1 A
why pick 2 1
why pick 1 1
why upto 2
cycle 2
why pick 2 1
why quiet 1 A
rejected 1 set F
counts ranked 0 covered 0 rejected 2 open 0
""",
}

# The first case closes without what it says, so it closes the three others too.
REUSED = {
    "tfpg": "tfpg 1\nmode N\nfailure F1 1\nfailure F2 1\nor A watch 0\nedge F1 A 0 9 *\nedge F2 A 0 9 *\nend\n",
    "log": "10 alarm A\n",
    "report": """report 2 k 0 doubt 0 budget 9
round 1 1 10
hyp 0
split ormay A 0 10
cycle 2
why upto 1
why unreached A 10
again
rejected 0 set -
counts ranked 0 covered 0 rejected 1 open 0
""",
}


def written(maker, name, texts):
    """The files of these texts."""
    return [maker.write(f"{name}.{kind}", texts[kind]) for kind in ("tfpg", "log", "report")]
