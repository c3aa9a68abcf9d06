"""Right renderers in single precision, whose errors the epsilon of `compare` must let pass.

`python3 python/tests/singles.py` prints the tables of docs/COMPARE.md, "Real numbers"."""
import numpy as np

import mistakes
from pxplanes.compare import picture, verdict

F = np.float32


def plain(a, b, c, x, y, scene):
    """The plane as it is."""
    p = F(1 << scene.fraction)
    return (F(a) / p * x.astype(F) + F(b) / p * y.astype(F)) + F(c) / p


def ray(a, b, c, x, y, scene):
    """A ray and a plane of unit normal, the eye a picture before the scene."""
    n = np.array([a / (1 << scene.fraction), b / (1 << scene.fraction), -1.0])
    n, size = (n / np.linalg.norm(n)).astype(F), np.linalg.norm(n)
    d, far = F(c / (1 << scene.fraction) / scene.far / size), F(scene.far)
    t = -((x.astype(F) / far * n[0] + y.astype(F) / far * n[1] - n[2]) + d) / n[2]
    return (t - F(1)) * far


def clip(a, b, c, x, y, scene):
    """Clip space and a depth buffer of floats."""
    w, h, p = scene.width, scene.height, (1 << scene.fraction) * scene.far
    A, B, C = F(a * w / p), F(b * h / p), F((c + a * w / 2 + b * h / 2) / p * 2 - 1)
    z = A * (F(2) * x.astype(F) / F(w) - F(1)) + B * (F(2) * y.astype(F) / F(h) - F(1)) + C
    return (z * F(0.5) + F(0.5)) * F(scene.far)


def triangle(a, b, c, x, y, scene):
    """Between three corners, by areas."""
    w, h, p = F(scene.width), F(scene.height), 1 << scene.fraction
    z0, zx, zy = F(c / p), F((a * scene.width + c) / p), F((b * scene.height + c) / p)
    s, t = x.astype(F) / w, y.astype(F) / h
    return (F(1) - s - t) * z0 + s * zx + t * zy


WAYS = (plain, ray, clip, triangle)


def samples(way, change=lambda depths: depths, roundings=verdict.ROUNDINGS):
    """Samples of the suite, with the depths that a way to compute planes gives, changed, where a face shows."""
    out = []
    for case in mistakes.CASES:
        scene, (x, y) = case.scene, picture.grid(case.scene)
        shown = picture.picture(scene, picture.REAL, x, y)
        depths = shown.depths.copy()
        for solid in scene.solids:
            for plane, number in solid.fronts + solid.backs:
                at = shown.faces == number
                depths[at] = way(*plane, x[at], y[at], scene)
        depths[shown.faces > 0] = change(depths[shown.faces > 0])
        out.append(verdict.Sample(scene, x, y, depths, shown.faces, False, verdict.Allowed(roundings)))
    return out


def alike(found):
    return sum(not (each.state == verdict.WRONG).any() for each in found)


def main():
    print("| A right renderer in single precision | Roundings of the terms or the far limit | Roundings of the depth itself | Cells |\n|---|---|---|---|")
    for way in WAYS:
        of_terms = of_depth = cells = 0.0
        for each in samples(way):
            off = np.abs(each.depths - each.real.depths)
            terms = np.maximum(verdict.plane_values(each.scene, each.real.faces, each.x, each.y, True), each.scene.far)
            of_terms = max(of_terms, (off / terms).max() / verdict.ROUNDING)
            of_depth = max(of_depth, (off / np.maximum(each.real.depths, 1)).max() / verdict.ROUNDING)
            cells = max(cells, off.max())
        print("| %s | %.1f | %s | %.0f |" % (way.__doc__.rstrip("."), of_terms, format(round(of_depth), ","), cells))
    print("\n| Epsilon, in roundings | The four | times (1 + 1e-6) | times (1 + 1e-6 N) | 0.4 too near | 0.01 too near |\n|---|---|---|---|---|---|")
    for roundings in (8, 16, 32, 64, 128):
        noise = np.random.default_rng(7)
        changes = [lambda d: d * (1 + 1e-6), lambda d: d * (1 + 1e-6 * noise.standard_normal(d.shape)), lambda d: d - 0.4, lambda d: d - 0.01]
        print("| %d | %d | %s |" % (roundings, min(alike(samples(way, roundings=roundings)) for way in WAYS), " | ".join(
            str(alike(samples(plain, change, roundings))) for change in changes)))


if __name__ == "__main__":
    main()
