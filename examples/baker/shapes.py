"""The shapes that bake.py knows: a plane, a cylinder, and the mesh of an OBJ file. Each maps its UVs to places in the image."""
from pathlib import Path

try:
    import numpy
except ImportError:
    numpy = None


class Surface:
    """A plane or a cylinder, whose UVs fill `wide` times `high` UDIM tiles."""

    def __init__(self, shape, wide, high):
        self.shape, self.wide, self.high = shape, wide, high
        self.tiles = [1001 + u + 10 * v for v in range(high) for u in range(wide)]

    def triangles(self, u, _v):
        """Which triangle each texel lies in, -1 for none."""
        return numpy.zeros(u.shape, int)

    def seen(self, u, v, _triangle):
        """The place in the image, s and t, of places on the surface."""
        across = u / self.wide if self.shape == "plane" else (1 - numpy.cos(2 * numpy.pi * u / self.wide)) / 2
        return across, 1 - v / self.high


def _corner(path, word, points, uvs):
    """The numbers of the point and the UV of a corner, from 0 on. OBJ counts from 1, or backwards from the latest: -1."""
    numbers = [int(it) if it else 0 for it in word.split("/")[:2]]
    found = [it - 1 if it > 0 else count + it for it, count in zip(numbers, (points, uvs))]
    if len(numbers) < 2 or not numbers[1]:
        raise ValueError(f"{path} has a face without UVs, at {word}")
    if not all(0 <= it < count for it, count in zip(found, (points, uvs))):
        raise ValueError(f"{path} has a face with a point or a UV that does not come before it, at {word}")
    return found


class Mesh:
    """The triangles of an OBJ file with UVs; the image covers its extent in x and y."""

    def __init__(self, path):
        points, uvs, corners = [], [], []
        for words in map(str.split, Path(path).read_text(encoding="utf-8").splitlines()):
            if words[:1] == ["v"]:
                points.append([float(it) for it in words[1:3]])
            elif words[:1] == ["vt"]:
                uvs.append([float(it) for it in words[1:3]])
            elif words[:1] == ["f"]:
                face = [_corner(path, word, len(points), len(uvs)) for word in words[1:]]
                corners += [(face[0], *face[n:n + 2]) for n in range(1, len(face) - 1)]
        if not corners:
            raise ValueError(f"{path} has no faces")
        points, corners = numpy.array(points), numpy.array(corners)
        low, high = points.min(axis=0), points.max(axis=0)
        self.uvs = numpy.array(uvs)[corners[:, :, 1]]
        places = (points[corners[:, :, 0]] - low) / numpy.maximum(high - low, 1e-30)
        edges = numpy.concatenate([self.uvs, numpy.ones((len(corners), 3, 1))], axis=2)
        has_area = abs(numpy.linalg.det(edges)) > 1e-14
        self.uvs, edges, places = self.uvs[has_area], edges[has_area], places[has_area]
        # barycentric weights and places are linear in u, v and 1 within a triangle
        self.weights = numpy.linalg.inv(edges)
        self.linear = self.weights @ numpy.concatenate([places[:, :, :1], 1 - places[:, :, 1:]], axis=2)
        cells = [(low, numpy.ceil(high)) for low, high in zip(self.uvs.min(axis=1), self.uvs.max(axis=1))]
        self.tiles = sorted({1001 + u + 10 * v for low, high in cells for u in range(int(low[0]), int(high[0]))
                             for v in range(int(low[1]), int(high[1])) if 0 <= u < 10 and v >= 0})

    def triangles(self, u, v):
        found, low, high = numpy.full(u.shape, -1), self.uvs.min(axis=1), self.uvs.max(axis=1)
        is_near = ((high >= (u.min(), v.min())) & (low <= (u.max(), v.max()))).all(axis=1)
        for it in numpy.flatnonzero(is_near):
            columns = slice(*numpy.searchsorted(u[0], (low[it, 0], high[it, 0] + 1e-12)))
            parts = numpy.stack([u[:, columns], v[:, columns], numpy.ones_like(u[:, columns])], axis=-1)
            found[:, columns][(parts @ self.weights[it] >= -1e-9).all(axis=-1)] = it
        return found

    def seen(self, u, v, triangle):
        of = self.linear[triangle]
        s, t = (of[..., 0, it] * u + of[..., 1, it] * v + of[..., 2, it] for it in (0, 1))
        return s, t
