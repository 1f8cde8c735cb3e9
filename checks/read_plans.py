"""A parser of plans that uses Python's TOML parser and none of the crates. It replaces names by numbers, and slots by the positions of
the submits that fill them."""

import tomllib

from small_plans import NO_MAXIMUM, Class, Client, Plan, Pool, without_bound


def read_plan(text):
    tables = tomllib.loads(text)
    pools = [read_pool(pool) for pool in tables.get("pool", [])]
    pool_numbers = {pool.name: number for number, pool in enumerate(pools)}
    class_numbers = {entry["name"]: number for number, entry in enumerate(tables.get("class", []))}
    classes = [
        Class(entry["name"], pool_numbers[entry["pool"]], read_body(entry["body"], class_numbers))
        for entry in tables.get("class", [])
    ]
    clients = [
        Client(entry["name"], entry["count"], entry.get("repeat", False), read_body(entry["body"], class_numbers))
        for entry in tables.get("client", [])
    ]
    return Plan(pools, classes, clients)


def read_pool(keys):
    flags = {key: keys.get(key, False) for key in ("prestart", "may_reject", "core_timeout")}
    most = NO_MAXIMUM if keys["max"] == "unbounded" else keys["max"]
    pool = Pool(keys["name"], keys["core"], most, keys["queue"], **flags)
    return without_bound(pool) if pool.queue == "unbounded" else pool


def read_body(actions, class_numbers):
    body, filled = [], {}
    for place, action in enumerate(actions):
        word, what, *slot = action.split()
        if word == "submit":
            if slot:
                filled[slot[-1]] = place
            body.append((word, class_numbers[what]))
        else:
            body.append((word, filled[what] if word == "get" else int(what)))
    return body
