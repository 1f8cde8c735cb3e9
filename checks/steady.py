"""The steady weights of a plan for which sizes exist: the weights of its actors and their total, in one vector for all pools."""

MOST_SIZE = 1_000_000
MOST_WEIGHT = 1_000_000_000


def is_too_large(plan):
    """Returns whether the plan's steady certificate has a weight above the limit of weights, or a total of at least the limit of sizes."""
    jobs = job_rows(plan)
    clients = [client_row(jobs, client) for client in plan.clients]
    weights = [weight for row in [*jobs.values(), *clients] for weight in row]
    return max(weights, default=0) > MOST_WEIGHT or total(plan, clients) >= MOST_SIZE


def steady_total(plan):
    jobs = job_rows(plan)
    return total(plan, [client_row(jobs, client) for client in plan.clients])


def total(plan, clients):
    return sum(client.count * row[0] for client, row in zip(plan.clients, clients))


def job_rows(plan):
    """Returns the weights of a job of each class, by the class's number: queued, at each position, and done. No class may submit itself,
    directly or indirectly."""
    rows = {}

    def settle(number):
        if number not in rows:
            body = plan.classes[number].body
            for word, what in body:
                if word == "submit":
                    settle(what)
            end = most_open(rows, body) + 1
            positions = weights(rows, body, end, 1)
            rows[number] = [positions[0], *positions, end]
        return rows[number]

    for number in range(len(plan.classes)):
        settle(number)
    return rows


def client_row(rows, client):
    return weights(rows, client.body, most_open(rows, client.body) if client.repeat else 0, 0)


def most_open(rows, body):
    """Returns the maximum total weight of the jobs, as if queued, of submits with a get that are open at the same time."""
    got = {what for word, what in body if word == "get"}
    now = most = 0
    for place, (word, what) in enumerate(body):
        if word == "submit" and place in got:
            now += rows[what][0]
        elif word == "get":
            now -= rows[body[what][1]][0]
        most = max(most, now)
    return most


def weights(rows, body, end, least):
    """Returns the weight of an actor at each position of the body, computed from the end of the body backwards."""
    behind = [end]
    for word, what in reversed(body):
        weight = behind[-1]
        if word == "submit":
            weight += rows[what][0]
        elif word == "get":
            weight = max(least, weight - rows[body[what][1]][-1])
        behind.append(weight)
    return behind[::-1]
