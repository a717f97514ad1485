"""The pictures of square grids, from which scripts start."""


def lattice(rows, columns, kind_of):
    """The picture of a lattice of vertices. The edges to the right and down from each vertex have rising ids, vertex by vertex; the kind
    of an edge is told by its two vertices, each as row and column, the one with the lower number first."""
    edges, at = [], {}
    for i in range(rows):
        for j in range(columns):
            for down, right in ((0, 1), (1, 0)):
                if i + down < rows and j + right < columns:
                    u, v = i * columns + j, (i + down) * columns + j + right
                    at[u, v] = at[v, u] = len(edges)
                    edges.append({"a": u, "b": v, "crossings": [], "id": len(edges), "kind": kind_of((i, j), (i + down, j + right))})
    rotations = []
    for i in range(rows):
        for j in range(columns):
            u, clockwise = i * columns + j, ((-1, 0), (0, 1), (1, 0), (0, -1))
            neighbours = [(i + di) * columns + j + dj for di, dj in clockwise if 0 <= i + di < rows and 0 <= j + dj < columns]
            around = [at[u, v] for v in neighbours]
            first = around.index(min(around))
            rotations.append(around[first:] + around[:first])
    return {"crossings": [], "edges": edges, "next_crossing": 0, "next_edge": len(edges), "rotations": rotations}


def grid(side, kind_of):
    """The picture of a square grid, where the kind of an edge is told by its id."""
    picture = lattice(side, side, lambda *_: 0)
    for edge in picture["edges"]:
        edge["kind"] = kind_of(edge["id"])
    return picture
