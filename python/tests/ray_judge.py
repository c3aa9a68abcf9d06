"""Judges pictures of models by rays, with nothing of the tool's code: triangles against rays by Moeller and Trumbore,
five rays a pixel, in its middle and a little next to it. Camera, files and the random programs are written here too,
from the words of docs/MODELLING.md."""
import math
from typing import NamedTuple

import numpy as np

FIVE = np.array(((0, 0), (-1, -1), (1, -1), (-1, 1), (1, 1)))
ASIDE = 0.02
THIN = 1e-9
PAIRS = 400000


class Camera(NamedTuple):
    """`rows` are right, down and away; `focal` pixels are as wide as a unit, in perspective at the distance 1."""

    rows: np.ndarray
    eye: np.ndarray
    middle: tuple
    focal: float
    perspective: bool


def camera_of(eye, at, size, perspective, fov=22.5):
    """OpenSCAD's camera from one point to another, with z upwards."""
    away = (at - eye) / np.linalg.norm(at - eye)
    right = np.cross(away, (0, 0, 1))
    right /= np.linalg.norm(right)
    focal = size[1] / 2 / math.tan(math.radians(fov) / 2)
    return Camera(np.stack([right, np.cross(away, right), away]), eye, ((size[0] - 1) / 2, (size[1] - 1) / 2),
                  focal if perspective else focal / np.linalg.norm(at - eye), perspective)


def rays_of(lens, size, aside=ASIDE):
    """Origins and ways of all rays, five to a pixel; a way goes one unit along the camera's axis."""
    x, y = np.meshgrid(np.arange(size[0]), np.arange(size[1]))
    across = (x.ravel()[:, None] + aside * FIVE[:, 0] - lens.middle[0]) / lens.focal
    down = (y.ravel()[:, None] + aside * FIVE[:, 1] - lens.middle[1]) / lens.focal
    off = (across[..., None] * lens.rows[0] + down[..., None] * lens.rows[1]).reshape(-1, 3)
    if lens.perspective:
        return np.broadcast_to(lens.eye, off.shape), lens.rows[2] + off
    return lens.eye + off, np.broadcast_to(lens.rows[2], off.shape)


def boxes_of(triangles, lens, size, aside):
    """The pixels at which each triangle may be; all of them for one that is not before the eye."""
    seen = (triangles - lens.eye) @ lens.rows.T
    low, high = np.zeros((len(seen), 2), int), np.tile(np.array(size) - 1, (len(seen), 1))
    is_before = (seen[..., 2] > 1e-6 * np.abs(seen).max()).all(1) if lens.perspective else np.ones(len(seen), bool)
    own = seen[is_before]
    places = lens.middle + lens.focal * own[..., :2] / (own[..., 2:] if lens.perspective else 1)
    low[is_before] = np.maximum(low[is_before], np.clip(np.floor(places.min(1) - 2 * aside), -1, 1e6).astype(int))
    high[is_before] = np.minimum(high[is_before], np.clip(np.ceil(places.max(1) + 2 * aside), -1, 1e6).astype(int))
    return low, np.maximum(high - low + 1, 0)


def crossings(triangles, lens, size, aside=ASIDE):
    """Of each crossing its ray, its distance along the axis, and 1 where the ray goes in, -1 where it comes out."""
    origins, ways = rays_of(lens, size, aside)
    low, wide = boxes_of(triangles, lens, size, aside)
    counts, found, first = wide.prod(1), [], 0
    while first < len(triangles):
        last = max(first + 1, int(np.searchsorted(np.cumsum(counts[first:]), PAIRS)) + first)
        own = np.repeat(np.arange(first, last), counts[first:last])
        at = np.arange(len(own)) - np.repeat(np.cumsum(counts[first:last]) - counts[first:last], counts[first:last])
        pixel = low[own, 0] + at % wide[own, 0] + size[0] * (low[own, 1] + at // wide[own, 0])
        own, ray = np.repeat(own, 5), (5 * pixel[:, None] + np.arange(5)).ravel()
        found.append(hits(triangles[own], origins[ray], ways[ray], ray))
        first = last
    return [np.concatenate(part) for part in zip(*found)] if found else [np.zeros(0, int)] * 3


def hits(triangles, origins, ways, ray):
    """Which of these rays meet which of these triangles, pair by pair."""
    p, u, v = triangles[:, 0], triangles[:, 1] - triangles[:, 0], triangles[:, 2] - triangles[:, 0]
    h, s = np.cross(ways, v), origins - p
    det, q = (u * h).sum(1), np.cross(s, u)
    with np.errstate(divide="ignore", invalid="ignore"):
        a, b, t = (s * h).sum(1) / det, (ways * q).sum(1) / det, (v * q).sum(1) / det
        met = (det != 0) & (a >= -THIN) & (b >= -THIN) & (a + b <= 1 + THIN)
    return ray[met], t[met], np.where(det[met] > 0, 1, -1)


def nearest(triangles, lens, size, aside=ASIDE):
    """Of each pixel and each of its five rays how far along the axis it meets a mesh first, from either side; infinite
    for nowhere."""
    ray, t, _ = crossings(triangles, lens, size, aside)
    out = np.full(5 * size[0] * size[1], np.inf)
    np.minimum.at(out, ray[t > 0] if lens.perspective else ray, t[t > 0] if lens.perspective else t)
    return out.reshape(-1, 5)


def holds(tree, leaves, winding):
    if not isinstance(tree, tuple):
        return winding[leaves.index(tree)] != 0
    parts = [holds(part, leaves, winding) for part in tree[1]]
    return any(parts) if tree[0] == "+" else all(parts) if tree[0] == "*" else parts[0] and not any(parts[1:])


def distances(tree, leaves, triangles, lens, size):
    """The same of an expression of closed meshes: where it holds first."""
    found = [[] for _ in range(5 * size[0] * size[1])]
    for number, own in enumerate(triangles):
        for ray, t, way in zip(*(part.tolist() for part in crossings(own, lens, size))):
            found[ray].append((t, number, way))
    out = np.full(len(found), np.inf)
    for ray, own in enumerate(found):
        own.sort()
        winding = [0] * len(leaves)
        for (t, number, way), after in zip(own, own[1:] + [(np.inf, 0, 0)]):
            winding[number] += way
            if after[0] - t > THIN and after[0] > (lens.near if lens.perspective else -np.inf) and holds(
                tree, leaves, winding):
                out[ray] = max(t, lens.near) if lens.perspective else t
                break
    return out.reshape(-1, 5)


def wrong_pixels(depths, cells, away, lens, room=1.0):
    """The pixels at which all five rays agree on something or nothing and the picture does not, or whose depth is more
    than `room` cells beyond all five; and how many pixels have something by all rays. A depth is lens.steep * (Z -
    lens.near), in perspective lens.steep * (1 / lens.near - 1 / Z)."""
    with np.errstate(divide="ignore", invalid="ignore"):
        deep = lens.steep * ((1 / lens.near - 1 / away) if lens.perspective else (away - lens.near))
    hit, own = np.isfinite(away), np.asarray(depths).ravel()
    is_there = own < cells
    low, high = np.ceil(deep.min(1)), np.ceil(deep.max(1))
    with np.errstate(invalid="ignore"):
        beyond = np.where(hit.all(1) & is_there, np.maximum(low - own, own - high), 0)
    bad = (hit.all(1) & ~is_there) | (~hit.any(1) & is_there) | (beyond > room)
    return np.flatnonzero(bad).tolist(), int(hit.all(1).sum())
