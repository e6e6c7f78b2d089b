"""What each example computes, in plain Python: the value of the folder's program, from its inputs.

Nothing here knows a pattern or a script, so a value that is the same here was reached in two ways.
"""


def word(number):
    """The number modulo 2^32."""
    return number % 2**32


def total(numbers):
    return word(sum(numbers))


def dot(xs, ys):
    return total(x * y for x, y in zip(xs, ys))


def columns(rows):
    return [[row[k] for row in rows] for k in range(len(rows[0]))]


def product(a, b):
    return [[dot(row, column) for column in columns(b)] for row in a]


def parts(xs, length):
    return [xs[k : k + length] for k in range(0, len(xs), length)]


def at(xs, k):
    """The element at k, or at the end that is nearest."""
    return xs[min(max(k, 0), len(xs) - 1)]


def convolution(xs, weights):
    middle = len(weights) // 2
    return [
        total(weight * at(xs, n + k - middle) for k, weight in enumerate(weights))
        for n in range(len(xs))
    ]


def brightened(row):
    """Grey values times 300/256, at most 255."""
    return [min(word(x * 300) >> 8, 255) for x in row]


def stencil(xs):
    return convolution(xs, [1, 1, 1])


def weighted_neighbours(xs, weights):
    """Each cell and its eight neighbours, with weights row after row."""

    def cell(n, m):
        return total(at(at(xs, n + k // 3 - 1), m + k % 3 - 1) * weights[k] for k in range(9))

    return [[cell(n, m) for m in range(len(xs[0]))] for n in range(len(xs))]


def least(row):
    """The least number, and where it stands first."""
    return [min(row), row.index(min(row))]


def sums_so_far(xs):
    return [total(xs[: k + 1]) for k in range(len(xs))]


def sums_from_on(xs):
    return [total(xs[k:]) for k in range(len(xs))]


def squares(xs):
    """The sum of the squares."""
    return total(x * x for x in xs)


def framed_squares(xs):
    return [word(x * x + 1) for x in [xs[0], *xs, xs[-1], xs[-1]]]


def three_sums(xs):
    """The sum of each three numbers that follow one another."""
    return [total(xs[k : k + 3]) for k in range(len(xs) - 2)]


def inner(xs, weights):
    """The weighted sums of the numbers that have all their neighbours."""
    return [dot(xs[k:], weights) for k in range(len(xs) - len(weights) + 1)]


def blurred(xs, weights):
    return [it // 4 for it in convolution(xs, weights)]


def most_above(xs):
    """By how much the greatest of three smoothed squares is above a number's square."""
    smooth = stencil([x * x for x in xs])
    near = [[at(smooth, n + k) for k in (-1, 0, 1)] for n in range(len(xs))]
    return [word(max(it) - x * x) for x, it in zip(xs, near)]


def least_near(a):
    """The least of each cell and its eight neighbours, the borders repeated."""
    near = (-1, 0, 1)
    return [
        [min(at(at(a, n + j), m + k) for j in near for k in near) for m in range(len(row))]
        for n, row in enumerate(a)
    ]


def rows_then_columns(a, weights):
    rows = [blurred(row, weights) for row in a]
    return columns([blurred(column, weights) for column in columns(rows)])


def distance(p, q):
    """The square of it, modulo 2^32 as all numbers are."""
    return word(sum((x - y) ** 2 for x, y in zip(p, q)))


def two_nearest(points, query):
    return [list(it) for it in sorted((distance(p, query), k) for k, p in enumerate(points))[:2]]


def shares(row):
    """What each number weighs, 2^(it - the greatest) in parts of 2^-16, of the whole, in 2^-15."""
    weights = [65536 >> min(31, max(row) - x) for x in row]
    return [(weight << 15) // sum(weights) for weight in weights]


def products_in_blocks(a, b):
    """The products of pairs of rows with pairs of columns, two by two."""
    return [
        [[[dot(row, it) for it in columns(both)] for row in columns(rows)] for both in columns(b)]
        for rows in a
    ]


VALUES = {
    "argmin": lambda rows, columns: [least(row) for row in rows],
    "biased": lambda a, x, bias: [word(dot(row, x) + it) for row, it in zip(a, bias)],
    "blocked_sums": lambda xs: [squares(block) for block in parts(xs, len(xs) // 8)],
    "blur": rows_then_columns,
    "brightened": lambda xs: brightened(xs),
    "brightened_rows": lambda rows: [brightened(row) for row in rows],
    "convolution": convolution,
    "convolution_inside": inner,
    "dot_product": lambda xs, ys: [dot(xs, ys)],
    "five_point": weighted_neighbours,
    "five_point_grid": weighted_neighbours,
    "five_point_rows": lambda xs, weights: weighted_neighbours(xs, sum(weights, [])),
    "framed": framed_squares,
    "histogram": lambda xs, bins: [[part.count(bin) for bin in bins] for part in parts(xs, 64)],
    "increment": lambda xs: [word(x + 1) for x in xs],
    "least_of_nine": least_near,
    "matrix_product": product,
    "matrix_product_block": products_in_blocks,
    "matrix_product_short": product,
    "matrix_product_grid": product,
    "matrix_product_tiles": product,
    "matrix_vector": lambda a, x: [dot(row, x) for row in a],
    "matrix_vector_lanes": lambda a, x: [dot(row, x) for row in a],
    "nearest_points": lambda points, ids, queries: [two_nearest(points, it) for it in queries],
    "normalised": lambda rows, bits: [shares(row) for row in rows],
    "normalised_rows": lambda rows, bits: [shares(row) for row in rows],
    "partial_sums": lambda xs, ys: [dot(*pair) for pair in zip(parts(xs, 4), parts(ys, 4))],
    "prefix_sums": lambda xs, ids: [it for part in parts(xs, 16) for it in sums_so_far(part)],
    "prefix_sums_steps": lambda xs, ids: [it for part in parts(xs, 16) for it in sums_so_far(part)],
    "read_twice": most_above,
    "read_twice_pairs": most_above,
    "rounded_up": stencil,
    "row_sums": lambda rows: [total(row) for row in rows],
    "smoothed_fours": lambda xs: stencil([x * x for x in xs]),
    "smoothed_squares": lambda xs: stencil([x * x for x in xs]),
    "squares_smoothed": lambda rows: [stencil([x * x for x in row]) for row in rows],
    "stencil": stencil,
    "strided_sums": lambda xs: [squares(xs[k::8]) for k in range(8)],
    "suffix_sums": lambda xs, ids: [it for part in parts(xs, 16) for it in sums_from_on(part)],
    "sum": lambda xs, one: [total(xs)],
    "sum_coalesced": lambda rows: [total(total(row) for row in rows)],
    "sum_in_two": lambda parts: [total(total(part) for part in parts)],
    "sum_of_parts": lambda parts, one: [total(part) for part in parts],
    "transpose": columns,
    "transpose_blocks": lambda a: columns(a),
    "transpose_grid": lambda a: columns(a),
    "transpose_tiles": columns,
    "tree_sums": lambda parts: [total(part) for part in parts],
    "turned_back": lambda xs: [word(2 * x + 1) for x in xs],
    "two_passes": lambda rows: [[word(2 * x + 1) for x in row] for row in rows],
    "two_steps": lambda xs: three_sums(three_sums(xs)),
    "two_steps_tiles": lambda xs: three_sums(three_sums(xs)),
}
