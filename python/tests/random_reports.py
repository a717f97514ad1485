"""Reports of sessions at random, with many deletions."""

import random

from fezdrok import Deleted, Inserted, Report, Session


def random_report(seed: int, calls: int) -> Report:
    """The report of a session with so many calls: a fifth grow, some two fifths insert and as many take out."""
    chance = random.Random(seed)
    with Session(prices=[3, 1]) as session:
        vertices, edges = 2, [0]
        for _ in range(calls):
            which = chance.random()
            if which < 0.2:
                edges.append(session.grow(chance.randrange(vertices)).edge)
                vertices += 1
            elif which < 0.62:
                reply = session.insert(chance.randrange(vertices), chance.randrange(vertices), chance.randrange(2))
                edges += [reply.edge] if isinstance(reply, Inserted) else []
            elif isinstance(reply := session.delete(chance.choice(edges)), Deleted):
                edges.remove(reply.edge)
        return session.report()
