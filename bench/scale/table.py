"""The table of simulated clusters: `table.py PROGRAM NODES ..`."""
import statistics
import subprocess
import sys

MASS_START, KILL, JOIN, LEAVE, CHURN = range(5)
# the round in which something happens
AT = 5
FIELDS = ("messages", "bytes", "suspicions", "holds", "alike", "up")


def play(program, nodes, what, rounds, churn=0, per_message=64, seed=1, same=0, at=AT):
    """The rounds of a cluster, each with its numbers; the program ends with the last that is taken."""
    words = (nodes, what, rounds, 1_000, churn, 15, per_message, seed, 1, at, 0, same)
    with subprocess.Popen([program, *map(str, words)], stdout=subprocess.PIPE, text=True) as process:
        try:
            for line in process.stdout:
                parts = line.split()
                if parts[0].isdigit():
                    told = dict(zip(parts[1::2], map(int, parts[2::2])))
                    yield {"round": int(parts[0]), **{field: told[field] for field in FIELDS}}
        finally:
            process.kill()


def first(rows, is_so):
    """How many rounds after something happened it is so; None where it is never."""
    return next((row["round"] - AT + 1 for row in rows if row["round"] >= AT and is_so(row)), None)


def mass_start(program, nodes, per_message):
    """Rounds until all agree, and kB that a node has sent until then."""
    # (each takes an hour)
    if nodes > 1_000 > per_message:
        return "-"
    sent, rounds = 0, 20 + nodes // 3
    for row in play(program, nodes, MASS_START, rounds, per_message=per_message, at=rounds + 1):
        sent += row["bytes"]
        if row["alike"] == row["up"]:
            return f"{row['round']}, {sent / nodes / 1_000:,.0f} kB"
    return "never"


def told(program, nodes, what, seeds=5):
    """Rounds until all hold what happened: the mean of some seeds."""
    spent = [first(play(program, nodes, what, 40, seed=seed), lambda row: row["holds"] >= row["up"]) for seed in range(1, seeds + 1)]
    return "never" if None in spent else f"{statistics.mean(spent):.1f}"


def bytes_a_round(program, nodes, churn):
    """Bytes that a node sends in a round."""
    rows = list(play(program, nodes, CHURN, 40, churn=churn))[-20:]
    return f"{statistics.mean(row['bytes'] for row in rows) / nodes:,.0f}"


def suspected(program, nodes, same):
    """Rounds until a killed node is suspected: the mean of 20 seeds, and the most."""
    spent = [first(play(program, nodes, KILL, 200, seed=seed, same=same), lambda row: row["holds"] > 0) for seed in range(1, 21)]
    return "never" if None in spent else f"{statistics.mean(spent):.1f}, {max(spent)}"


def main(program, *words):
    sizes = [int(word) for words_of in words for word in words_of.split()]
    print("nodes", *sizes, sep=" | ")

    def tell(what, row):
        print(what, *(row(nodes) for nodes in sizes), sep=" | ", flush=True)

    for per_message in (64, 256, 512, 1_024):
        tell(f"all start at once, {per_message} changes a message: rounds until all agree, sent by a node",
             lambda nodes: mass_start(program, nodes, per_message))
    for what, happens in (("killed", KILL), ("joins", JOIN), ("leaves", LEAVE)):
        tell(f"one {what}: rounds until all hold it so", lambda nodes: told(program, nodes, happens))
    tell("bytes a node and round, at rest", lambda nodes: bytes_a_round(program, nodes, 0))
    tell("with a leave or a return in each round", lambda nodes: bytes_a_round(program, nodes, 1_000))
    for same, what in ((0, "own seeds"), (1, "one seed")):
        tell(f"one killed, {what}: rounds until it is suspected, mean and most of 20",
             lambda nodes: suspected(program, nodes, same) if nodes <= 100 else "-")


main(*sys.argv[1:])
