"""Matrix Market files, SciPy's `.npz` and FROSTT's `.tns`: whole numbers at coordinates from 1, entry by entry."""

import decimal
import gzip
import itertools

VALUE_LEAST = -(2**63)
VALUE_MOST = 2**64 - 1
DIMENSION_MOST = 2_147_483_647

SYMMETRIES = {"general": None, "symmetric": 1, "skew-symmetric": -1}


class Refusal(Exception):
    """Why a file isn't taken, with its name and line."""


def opened(path):
    """A text file, unpacked where its name ends in `.gz`."""
    return gzip.open(path, "rt", encoding="ascii") if path.endswith(".gz") else open(path, encoding="ascii")


def whole(text, place):
    """The whole number that a word spells, as `7`, `7.0` or `7e2`, in the range of `sam`'s values."""
    try:
        number = decimal.Decimal(text)
    except decimal.InvalidOperation:
        raise Refusal(f"{place}: {text} is no number") from None
    if not number.is_finite() or number != number.to_integral_value():
        raise Refusal(f"{place}: {text} is no whole number")
    if not VALUE_LEAST <= number <= VALUE_MOST:
        raise Refusal(f"{place}: {text} is not from -2^63 to 2^64-1")
    return int(number)


def coordinate(text, dimension, place):
    """A coordinate from 1 to the dimension, or to the largest that `sam` takes where the dimension isn't known."""
    if not (text.isascii() and text.isdigit()) or not 1 <= int(text) <= (dimension or DIMENSION_MOST):
        raise Refusal(f"{place}: {text} is no coordinate from 1 to {dimension or DIMENSION_MOST}")
    return int(text)


def rows_of(file, path, comment, first=1):
    """The words of each line that isn't skipped, with its place; the first line that is read has the number `first`."""
    for number, line in enumerate(file, first):
        words = line.split()
        if words and not words[0].startswith(comment):
            yield words, f"{path} line {number}"


def read_frostt(path):
    """The entries of a `.tns` file; its dimensions are the largest coordinates, and known when it was read."""
    modes = None
    with opened(path) as file:
        for words, place in rows_of(file, path, "#"):
            modes = modes or len(words) - 1
            if len(words) != modes + 1 or modes < 1:
                raise Refusal(f"{place}: {len(words)} words, where the first entry has {modes + 1}")
            yield tuple(coordinate(word, None, place) for word in words[:-1]), whole(words[-1], place)


class Market:
    """A Matrix Market file: what its first lines say, and its entries."""

    def __init__(self, path):
        self.path = path
        with opened(path) as file:
            head = file.readline().lower().split()
            if head[:2] != ["%%matrixmarket", "matrix"] or len(head) != 5:
                raise Refusal(f"{path} line 1: no head of a Matrix Market matrix")
            self.form, self.field, self.symmetry = head[2:]
            sizes, place = next(rows_of(file, path, "%", 2), ([], f"{path} line 2"))
        if self.form not in ("coordinate", "array") or self.symmetry not in SYMMETRIES:
            raise Refusal(f"{path} line 1: {self.form} {self.symmetry} matrices are not taken")
        if self.field not in ("integer", "real", "pattern") or (self.form, self.field) == ("array", "pattern"):
            raise Refusal(f"{path} line 1: values of the field {self.field} are not taken")
        if len(sizes) != (3 if self.form == "coordinate" else 2) or not all(word.isascii() and word.isdigit() for word in sizes):
            raise Refusal(f"{place}: no sizes of a matrix")
        self.dimensions = tuple(int(word) for word in sizes[:2])
        self.stored = int(sizes[2]) if self.form == "coordinate" else len(list(self.places()))

    def places(self):
        """The coordinates of a dense file's numbers: column by column, of a symmetric matrix the lower half alone."""
        rows, columns = self.dimensions
        first = {"general": lambda _: 1, "symmetric": lambda j: j, "skew-symmetric": lambda j: j + 1}[self.symmetry]
        return ((i, j) for j in range(1, columns + 1) for i in range(first(j), rows + 1))

    def written(self):
        """The entries as they stand in the file."""
        width = {"pattern": 2}.get(self.field, 3) if self.form == "coordinate" else 1
        seen, places = 0, self.places()
        with opened(self.path) as file:
            for words, place in itertools.islice(rows_of(file, self.path, "%"), 1, None):
                seen += 1
                if len(words) != width or seen > self.stored:
                    raise Refusal(f"{place}: not one of {self.stored} entries of {width} words")
                if self.form == "array":
                    at = next(places)
                else:
                    at = tuple(coordinate(word, most, place) for word, most in zip(words, self.dimensions))
                yield at, 1 if self.field == "pattern" else whole(words[-1], place)
        if seen < self.stored:
            raise Refusal(f"{self.path}: {seen} of {self.stored} entries")

    def entries(self):
        """The entries of the whole matrix: of a symmetric one also those on the other side of the diagonal."""
        sign = SYMMETRIES[self.symmetry]
        for (i, j), value in self.written():
            if self.form == "coordinate" or value != 0:
                yield (i, j), value
                if sign is not None and i != j:
                    yield (j, i), sign * value


def scipy_sparse():
    try:
        import scipy.sparse
    except ImportError:
        raise Refusal("SciPy is needed for .npz files") from None
    return scipy.sparse


def read_npz(path):
    """The dimensions of a matrix that SciPy saved, and its entries."""
    matrix = scipy_sparse().load_npz(path).tocoo()
    values = zip(matrix.row.tolist(), matrix.col.tolist(), matrix.data.tolist())
    entries = (((i + 1, j + 1), whole(str(value), f"{path} at {i + 1} {j + 1}")) for i, j, value in values)
    return matrix.shape, entries


def write_market(path, dimensions, entries):
    """A Matrix Market file of whole numbers, entry by entry."""
    with open(path, "w", encoding="ascii") as file:
        file.write("%%MatrixMarket matrix coordinate integer general\n")
        file.write(f"{dimensions[0]} {dimensions[1]} {len(entries)}\n")
        file.writelines(f"{i} {j} {value}\n" for (i, j), value in entries)


def write_npz(path, dimensions, entries):
    """A matrix by rows, as SciPy saves it, of numbers of 64 bits with sign."""
    sparse = scipy_sparse()
    if any(value >= 2**63 for _, value in entries):
        raise Refusal(f"{path}: a value above 2^63-1 doesn't fit SciPy's 64 bits with sign")
    values = [value for _, value in entries]
    rows = [i - 1 for (i, _), _ in entries]
    columns = [j - 1 for (_, j), _ in entries]
    matrix = sparse.coo_matrix((values, (rows, columns)), shape=dimensions, dtype="int64")
    sparse.save_npz(path, matrix.tocsr())
