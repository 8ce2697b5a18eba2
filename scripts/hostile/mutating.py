"""A client process that sends bytes that are nearly requests and judges each reply, for streams.py:
`python3 -m hostile.mutating PROGRAM PORT SEED BYTES`. It prints what it counted as one line of JSON.
"""
import collections
import io
import json
import random
import sys
import threading

from hostile.nearly import ARRAY, CLEAN, FLIPPED, TORN, block, last_bytes
from tcp import Client, read_reply

REQUESTS_OF_A_BLOCK = 200
MOST_BLOCKS = 12


def take_all(client, taken):
    """Takes all replies; the last entry tells whether the connection was ended in good order."""
    try:
        while data := client.socket.recv(1 << 16):
            taken.append(data)
        taken.append(True)
    except ConnectionError:
        taken.append(False)


def begins_so(reply, begins):
    return ARRAY in begins if isinstance(reply, list) else reply.startswith(begins)


def replies(taken, is_whole):
    """The replies in turn; where the connection was reset the last one may be cut."""
    data = io.BytesIO(taken)
    while data.tell() < len(taken):
        try:
            yield read_reply(data)
        except ConnectionError:
            if is_whole:
                raise
            return


def judge(sent, ending, taken, is_whole):
    """How many of the requests were answered, each rightly. All have to be, but where a fault ended the connection and the
    server left bytes unread: then the peer may lose what it has not taken."""
    kind, behind = ending
    wanted = [*sent, *((b"", begins) for begins in behind)]
    answered = 0
    for reply in replies(taken, is_whole):
        request, begins = wanted[answered] if answered < len(wanted) else (b"", ())
        if not begins_so(reply, begins):
            raise AssertionError(f"{reply!r} where {begins} was wanted, for {request[:300]!r} at the end {kind}")
        answered += 1
    least = len(wanted) if kind != FLIPPED else len(sent)
    if (kind in (CLEAN, TORN) and not is_whole) or (is_whole and answered < least):
        raise AssertionError(f"{answered} of {len(wanted)} replies came, at the end {kind}, {is_whole}")
    return min(answered, len(sent))


def one_connection(port, chance, counted):
    """Sends a fresh block so many times, and then what may end the connection; counts the bytes that were answered."""
    client = Client(("127.0.0.1", port))
    sent, taken = [], []
    taker = threading.Thread(target=take_all, args=(client, taken), daemon=True)
    taker.start()
    last, *ending = last_bytes(chance)
    try:
        for _ in range(chance.randrange(1, MOST_BLOCKS)):
            made = block(chance, REQUESTS_OF_A_BLOCK)
            sent += made
            client.send(b"".join(data for data, _ in made))
        client.send(last)
        client.socket.shutdown(1)
    except ConnectionError:
        counted["broken"] += 1
    taker.join()
    client.close()
    is_whole = taken.pop()
    answered = judge(sent, ending, b"".join(taken), is_whole)
    counted["connections"] += 1
    counted[ending[0]] += 1
    counted["requests"] += answered
    counted["bytes"] += sum(len(data) for data, _ in sent[:answered])
    counted["refused"] += sum(begins[0][:1] == b"-" for _, begins in sent[:answered])


def main(port, seed, least):
    counted = collections.Counter()
    chance = random.Random(seed)
    while counted["bytes"] < least:
        one_connection(port, chance, counted)
    print(json.dumps(counted))


if __name__ == "__main__":
    main(*map(int, sys.argv[2:]))
