#!/usr/bin/env python3
"""Compares the finder with a search over all orders, on random histories of few calls. No part of the gate.

usage: compare_finder.py HISTORIES SEED > calls     writes a history a line, a call six numbers: what it does (0 put, 1 remove,
                                                    2 hit, 3 miss), key, start, end, value, expiry or moment
       compare_finder.py right HISTORIES SEED > calls     writes histories of two to five keys that have an order
       compare_finder.py calls answers              compares what compare_finder.rattle said of them, line by line

A certificate must be an order that the definition of an accepted one allows, a rejected history must have no such order,
and the hits of an undecided one must be just those for which nothing may be decided. The search goes over the orders of all
calls, of up to eight; of more calls over the orders of each key.
"""
import random
import sys

NEVER = 2**64 - 1
PUT, REMOVE, HIT, MISS = range(4)
ACT, KEY, START, END, VALUE, TIME = range(6)


def crossed(chance):
    """A random history of few writes of one key, most of them long, and hits of their values."""
    history = []
    for value in range(1, chance.randint(2, 3) + 1):
        history.append((PUT, 1, chance.randint(0, 3), chance.randint(3, 6), value, NEVER))
    while len(history) < 6:
        start = chance.randint(0, 5)
        value = chance.randint(1, 2)
        history.append((HIT, 1, start, min(6, start + chance.randint(0, 2)), value, chance.randint(0, 4)))
    chance.shuffle(history)
    return history


def repeated(chance):
    """A random history of one key with puts of one or two values, most of them long, and hits of them."""
    values, top, history = chance.choice((1, 2, 2)), chance.choice((8, 10, 12)), []
    for _ in range(chance.randint(2, 4)):
        ends, time = sorted((chance.randint(0, top), chance.randint(0, top))), chance.choice((NEVER, NEVER, chance.randint(1, 3)))
        act = PUT if chance.random() < 0.9 else REMOVE
        history.append((act, 1, *ends, chance.randint(1, values), time if act == PUT else 0))
    for _ in range(chance.randint(2, 4)):
        start = chance.randint(0, top)
        history.append((HIT, 1, start, min(top, start + chance.randint(0, 3)), chance.randint(1, values), chance.choice((0, 0, 1, 2))))
    chance.shuffle(history)
    return history


def made(chance):
    """A random history. Some have one value, or long calls, or no expiries, or equal values."""
    kind = chance.random()
    if kind < 0.4:
        return crossed(chance)
    if kind < 0.6:
        return repeated(chance)
    keys, values, top = chance.choice((1, 1, 2)), chance.choice((1, 2, 2, 3)), chance.choice((3, 6, 6, 12))
    expiring = chance.random() < 0.5
    acts = chance.choice(((PUT, PUT, REMOVE, HIT, HIT, HIT, MISS), (PUT, HIT, HIT), (PUT, PUT, HIT, HIT, HIT)))
    history = []
    for _ in range(chance.randint(1, 6)):
        act, ends = chance.choice(acts), sorted((chance.randint(0, top), chance.randint(0, top)))
        if chance.random() < 0.01:
            ends.reverse()
        time = NEVER if act == PUT else 0
        if expiring and (act == HIT or chance.random() < 0.7):
            time = chance.choice((0, 1, 2, 3, 4, NEVER - 1, NEVER)) if chance.random() < 0.1 else chance.randint(0, 4)
        history.append((act, chance.randint(1, keys), *ends, chance.randint(1, values), time))
    return history


def right(chance):
    """A random history of several keys, each with a random history of one key that has an order."""
    history = []
    for key in range(1, chance.randint(2, 5) + 1):
        of_key = repeated(chance)
        while not some_order(of_key):
            of_key = repeated(chance)
        history += [(act, key, *rest) for act, _, *rest in of_key]
    chance.shuffle(history)
    return history


def live(expires, moment):
    return moment < expires or expires == NEVER


def steps_on(history, call, state):
    """The values of all keys after the call, or None where it is a hit of another value."""
    act, key, _, _, value, time = history[call]
    if act == HIT and not (key in state and state[key][0] == value and live(state[key][1], time)):
        return None
    if act == PUT:
        return {**state, key: (value, time)}
    if act == REMOVE:
        return {k: v for k, v in state.items() if k != key}
    return state


def allowed(history, order):
    """Whether this order of all calls is one that the definition accepts."""
    state = {}
    if sorted(order) != list(range(len(history))):
        return False
    for place, call in enumerate(order):
        if history[call][END] < history[call][START]:
            return False
        if any(history[later][END] < history[call][START] for later in order[place + 1:]):
            return False
        state = steps_on(history, call, state)
        if state is None:
            return False
    return True


def some_order(history, done=(), state={}):
    """Whether some order of the calls that are not done goes on from there."""
    left = [call for call in range(len(history)) if call not in done]
    for call in left:
        start, end = history[call][START], history[call][END]
        if end < start or any(history[other][END] < start for other in left):
            continue
        after = steps_on(history, call, state)
        if after is not None and some_order(history, done + (call,), after):
            return True
    return not left


def has_order(history):
    """Whether some order of the calls is one that the definition accepts: of many calls, some order of those of each key."""
    if len(history) <= 8:
        return some_order(history)
    keys = {call[KEY] for call in history}
    return all(some_order([call for call in history if call[KEY] == key]) for key in keys)


def doubtful(history):
    """The hits for which nothing may be decided: each can have read several puts."""
    hits = []
    for place, hit in enumerate(history):
        if hit[ACT] != HIT:
            continue
        begun = [put for put in history if put[:2] == (PUT, hit[KEY]) and put[VALUE] == hit[VALUE] and put[START] <= hit[END]]
        writes = [write for write in history if write[ACT] in (PUT, REMOVE) and write[KEY] == hit[KEY]]
        stand = [put for put in begun if not any(put[END] < w[START] and w[END] < hit[START] for w in writes)]
        if sum(live(put[TIME], hit[TIME]) for put in stand) > 1:
            hits.append(place)
    return hits


def compare(history, answer):
    kind, words = answer[0], answer[1:]
    if kind == "accepted":
        return words[0] == "true" and allowed(history, [int(word) for word in words[1:]])
    if kind == "undecided":
        return words != [] and [int(word) for word in words] == doubtful(history)
    return not has_order(history)


def main():
    make = right if sys.argv[1] == "right" else made
    numbers = sys.argv[2:] if make is right else sys.argv[1:]
    if numbers[0].isdigit():
        chance = random.Random(int(numbers[1]))
        for _ in range(int(numbers[0])):
            print(*(word for call in make(chance) for word in call))
        return 0
    counts, wrong, fits, has = {}, 0, 0, 0
    with open(sys.argv[1]) as calls, open(sys.argv[2]) as answers:
        for line, answer in zip(calls, answers, strict=True):
            words = [int(word) for word in line.split()]
            history = [tuple(words[at:at + 6]) for at in range(0, len(words), 6)]
            said = answer.split()
            counts[said[0]] = counts.get(said[0], 0) + 1
            fits += said[0] in ("accepted", "undecided") and doubtful(history) != []
            has += said[0] == "undecided" and has_order(history)
            if not compare(history, said):
                wrong += 1
                print("differs:", history, answer.strip())
    print(sum(counts.values()), "histories:", counts, "wrong:", wrong)
    print("with hits that several puts fit, none rejected:", fits, "undecided though there is an order:", has)
    return wrong != 0


sys.exit(main())
