"""The table of what run.sh measured, the ratios that are aimed at, and bench/results/agent.csv."""
import csv
import statistics
import sys

CONNECTIONS = (1, 8, 32, 128)
# what is aimed at: the row, the row that it is compared with, and the least ratio of their requests a second
AIMS = (
    ("agent, owner", "nginx, return 200", 0.8),
    ("agent, echo", "nginx, return 200 to a POST", 0.5),
    ("agent, one hop", "nginx, one hop", 0.8),
    ("agent, one hop", "nginx, one hop, connections kept", 0.8),
    ("agent, one hop", "haproxy, one hop", 0.8),
)


def read(name):
    """The rounds of each row and number of connections: requests a second, the two percentiles, errors and other statuses."""
    found = {}
    for line in open(name):
        row, connections, numbers = line.rsplit(",", 2)
        requests, spent, half, most, errors, others = map(int, numbers.split())
        rate = requests * 1_000_000 / max(spent, 1)
        found.setdefault((row, int(connections)), []).append((rate, half, most, errors, others))
    return found


def middle(rounds):
    rate, half, most = (statistics.median(each[place] for each in rounds) for place in range(3))
    return rate, half, most, sum(each[3] for each in rounds), sum(each[4] for each in rounds)


def main(name, recorded, to):
    rows = {key: middle(rounds) for key, rounds in read(name).items()}
    names = list(dict.fromkeys(row for row, _ in rows))
    print("requests a second (p50, p99 in ms)", *(f"{n} connections" for n in CONNECTIONS), sep=" | ")
    for row in names:
        cells = [rows[row, n] for n in CONNECTIONS]
        print(row, *(f"{rate:,.0f} ({half / 1000:.2f}, {most / 1000:.2f})" for rate, half, most, *_ in cells), sep=" | ")
    for row in names:
        for n in CONNECTIONS:
            if any(rows[row, n][3:]):
                print(f"{row}, {n} connections: {rows[row, n][3]} errors of the connection, {rows[row, n][4]} other statuses")
    for row, other, least in AIMS:
        if (other, 1) in rows:
            ratios = [rows[row, n][0] / rows[other, n][0] for n in CONNECTIONS]
            told = ", ".join(f"{ratio:.2f}{'' if ratio >= least else ' (missed)'}" for ratio in ratios)
            print(f"{row} by {other}, aim {least}: {told}")
    with open(to, "w", newline="") as file:
        table = csv.writer(file, lineterminator="\n")
        table.writerow(["server", "connections", "requests a second", "p50 in us", "p99 in us", "errors", "other statuses", "recorded"])
        for (row, n), (rate, half, most, errors, others) in rows.items():
            table.writerow([row, n, round(rate), round(half), round(most), errors, others, recorded])


main(*sys.argv[1:])
