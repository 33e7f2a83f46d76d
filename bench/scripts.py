#!/usr/bin/env python3
"""Writes a replay script that posts many alerts: bench/scripts.py NAME LINES [THREADS]

The posts belong to so many threads in turn, one where no number is given.

NAME is one of
  distinct   one alert a post, each of a label set of its own
  repeated   one alert a post, of 1,000 label sets reported again and again, each report overlapping the last
  replaced   the same, but each report begins when the last has ended, so that none is merged
  batches    posts of 100 alerts, each of a label set of its own
  followed   as distinct, with a subscriber that reads each alert after its post; every second line is a read
"""
import datetime
import json
import sys

BEGIN = datetime.datetime(2024, 1, 1)


def moment(seconds):
    """A time text, so many seconds after the beginning."""
    return (BEGIN + datetime.timedelta(seconds=seconds)).strftime("%Y-%m-%dT%H:%M:%SZ")


def alert(number, start):
    """An alert of ten labels, as Prometheus posts it, that ends ten minutes after its start."""
    labels = {
        "alertname": "HighLatency",
        "cluster": f"cluster-{number % 7}",
        "container": "server",
        "endpoint": "metrics",
        "instance": f"10.0.{number // 250 % 250}.{number % 250}:9090",
        "job": "api",
        "namespace": f"team-{number % 50}",
        "pod": f"server-{number}",
        "service": "frontend",
        "severity": "page",
    }
    return {
        "labels": labels,
        "annotations": {"summary": f"requests to server-{number} take too long"},
        "startsAt": moment(start),
        "endsAt": moment(start + 600),
        "generatorURL": "http://prometheus.example.org:9090/graph",
    }


def post(second, alerts, threads):
    return {"do": "post", "thread": second % threads, "at": moment(second), "body": alerts}


def commands(name, lines, threads=1):
    """So many lines of that kind."""
    if name == "followed":
        yield {"do": "subscribe", "thread": 0, "sub": "reader"}
    for line in range(lines // 2 if name == "followed" else lines):
        if name in ("repeated", "replaced"):
            yield post(line, [alert(line % 1000, line // 1000 * (60 if name == "repeated" else 600))], threads)
        elif name == "batches":
            yield post(line, [alert(line * 100 + place, line) for place in range(100)], threads)
        else:
            yield post(line, [alert(line, line)], threads)
        if name == "followed":
            yield {"do": "read", "thread": 0, "sub": "reader"}


def main():
    name, lines = sys.argv[1], int(sys.argv[2])
    threads = int(sys.argv[3]) if len(sys.argv) > 3 else 1
    print('{"route":{"receiver":"ops"}}')
    for command in commands(name, lines, threads):
        print(json.dumps(command, separators=(",", ":")))


if __name__ == "__main__":
    main()
