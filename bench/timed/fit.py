"""Fits to the points of a call a sum, of a constant and a number for each unit of the values that determine its time,
so that no point is above it and it is as little above them as possible, for bench/time."""
import itertools
import math


def solved(points, columns):
    """The factors of a constant and of these columns by which the sum meets these points, if there is one answer."""
    rows = [[1.0, *(point[0][it] for it in columns), point[1]] for point in points]
    size = len(rows)
    for at in range(size):
        pivot = max(range(at, size), key=lambda row: abs(rows[row][at]))
        if abs(rows[pivot][at]) < 1e-9:
            return None
        rows[at], rows[pivot] = rows[pivot], rows[at]
        for other in range(size):
            if other != at:
                share = rows[other][at] / rows[at][at]
                rows[other] = [mine - share * its for mine, its in zip(rows[other], rows[at])]
    return [rows[at][size] / rows[at][at] for at in range(size)]


def total_of(factors, columns, numbers):
    return factors[0] + sum(factor * numbers[it] for factor, it in zip(factors[1:], columns))


def rounded_up(factors):
    """To three digits, and a constant to a whole number."""
    constant, *others = factors
    return [math.ceil(constant - 1e-6), *(math.ceil(it * 100 - 1e-6) / 100 for it in others)]


def binding(points):
    """The points that a sum may just meet: those that no other point with numbers as small has as large a count as."""
    found = []
    for numbers, count in sorted(set(points), key=lambda point: (-point[1], point[0])):
        if not any(all(a <= b for a, b in zip(other, numbers)) for other, _ in found):
            found.append((numbers, count))
    return found


def fit(points):
    """The factors of a constant and of each column for points ((numbers), count); none is below 0."""
    width, met = len(points[0][0]), binding(points)
    columns = [it for it in range(width) if any(point[0][it] for point in points)]
    best = None
    for many in range(len(columns) + 1):
        for used in itertools.combinations(columns, many):
            for chosen in itertools.combinations(met, many + 1):
                factors = solved(chosen, used)
                if factors is None or min(factors) < -1e-6:
                    continue
                if any(total_of(factors, used, numbers) < count - 1e-6 for numbers, count in met):
                    continue
                sums = [total_of(factors, used, numbers) for numbers, _ in points]
                above = sum((total - point[1]) / max(point[1], 20) for total, point in zip(sums, points))
                if best is None or above < best[0] - 1e-9:
                    best = above, rounded_up(factors), used
    if best is None:
        raise ValueError("no sum lies above all points")
    factors = [0.0] * (width + 1)
    factors[0] = best[1][0]
    for it, factor in zip(best[2], best[1][1:]):
        factors[it + 1] = factor
    return factors
