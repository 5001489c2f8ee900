"""What the trace of a script has of each event in numbers: a count that shares nothing with the program's own."""

import json

REQUEST, RESPONSE = "01", "02"


def numbers_of(record):
    """What an event adds to the numbers of routers: pairs of a router and a map."""
    answers = record["record"] == "event" and record["event"]["kind"] in ("deliver", "stranger", "liar")
    for datagram in record["sent"]:
        data = datagram["bytes"]
        is_response = data.startswith(RESPONSE)
        yield datagram["router"], {
            "datagrams": 1,
            "bytes": len(data) // 2,
            "entries": (len(data) // 2 - 4) // 20 if is_response else 0,
            "requests": int(data.startswith(REQUEST)),
            "replies": int(is_response and answers),
        }
    if record["record"] == "event":
        yield record["router"], {
            "regular": int(record["update"] == "regular"),
            "triggered": int(record["update"] == "triggered"),
            "changes": len(record["changes"]),
        }


def events_of(trace):
    """The moment, the router and the numbers of each event of a trace."""
    for line in trace:
        record = json.loads(line)
        if record["record"] in ("start", "event"):
            for router, numbers in numbers_of(record):
                yield record["now"], router, numbers
