"""One edge at a time, as an editor does it: opens a picture, asks what an edge would cross, puts it in, takes that back,
takes another out, and prints what each call gives. The session is in this process where the library is there."""

from fezdrok import Refused, Session


def main() -> None:
    """Edit a picture of two vertices and an edge."""
    with Session() as session:
        print(session.counts())
        print(session.grow(1))
        print(session.route(0, 2))
        print(session.insert(0, 2))
        print(session.undo())
        print(session.insert(0, 2, kind=7))
        reply = session.insert(0, 0)
        if isinstance(reply, Refused):
            print(f"refused: {reply.number} {reply.name}")
        print(session.delete(0))
        print(session.counts())
        print(session.report())


if __name__ == "__main__":
    main()
