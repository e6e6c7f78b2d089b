"""Types and lengths, against the tables of docs/LANGUAGE.md."""
import unittest
from fractions import Fraction

from lift_opencl.lengths import Length
from lift_opencl.program import declarations, last_term, made_by_kernels
from lift_opencl.term_types import with_types

PROGRAM = """
# size Z from 1 to 2;
size M from 1 to 8;  # output
size N multiple 6 from 6 to 600;
size T from 1 to 9;
input xs: [u32; N];
input rows: [[u32; M + 1]; N];
input pairs: [(u32, (u32, u32)); 4*T];
input then: [u32; N*N - 2];
output xs
"""
TYPES = {
    "1": "u32",
    "xs": "[u32; N]",
    "rows": "[[u32; M + 1]; N]",
    "then": "[u32; N*N - 2]",
    r"map(\x. pair(x, 1), xs)": "[(u32, u32); N]",
    r"mapGlb(\r. mapSeq(\x. add(x, 1), r), rows)": "[[u32; M + 1]; N]",
    r"map(\p. second(first(p)), zip(pairs, pairs))": "[(u32, u32); 4*T]",
    r"mapGlb(\p. div(first(p), 4), pairs)": "[u32; 4*T]",
    "reduce(add, 0, xs)": "[u32; 1]",
    r"foldSeq(\a p. pair(first(p), first(a)), pair(0, 0), pairs)": "[(u32, u32); 1]",
    r"let a = map(\p. second(p), pairs) in split(4, a)": "[[(u32, u32); 4]; T]",
    "zip(xs, rows)": "[(u32, [u32; M + 1]); N]",
    "split(2, xs)": "[[u32; 2]; N/2]",
    "split(4, split(2*T, join(split(T, pairs))))": "[[[(u32, (u32, u32)); 2*T]; 4]; 1/2]",
    "join(rows)": "[u32; M*N + N]",
    "transpose(rows)": "[[u32; N]; M + 1]",
    "reverse(xs)": "[u32; N]",
    "stride(3, xs)": "[u32; N]",
    "slide(3, 1, pad(1, 1, xs))": "[[u32; 3]; N]",
    "slide(4, 2, xs)": "[[u32; 4]; N/2 - 1]",
    "pad(2, 1, xs)": "[u32; N + 3]",
    r"toLocal(mapLcl(\x. x, then(xs)))": "[u32; N]",
    "toPrivate(xs)": "[u32; N]",
    r"map(\xs. xs, rows)": "[[u32; M + 1]; N]",
}


class Types(unittest.TestCase):
    def test_types(self) -> None:
        names = declarations(PROGRAM).inputs
        for text, type in TYPES.items():
            with self.subTest(text):
                self.assertEqual(str(with_types(last_term(text), names)), type)

    def test_new_form(self) -> None:
        with self.assertRaisesRegex(ValueError, "mapNew is new"):
            with_types(last_term("mapNew(xs)"), declarations(PROGRAM).inputs)

    def test_declarations(self) -> None:
        declared = declarations(PROGRAM)
        sizes = ["M from 1 to 8", "N multiple 6 from 6 to 600", "T from 1 to 9"]
        self.assertEqual([str(it) for it in declared.sizes.values()], sizes)
        self.assertEqual(list(declared.inputs), ["xs", "rows", "pairs", "then"])

    def test_kernels_in_postorder(self) -> None:
        """The array of a map comes before its body's, and an inner `then` before an outer one."""
        text = r"zip(then(mapSeq(\x. x, then(xs))), then(reverse(then)))"
        made = made_by_kernels(last_term(text))
        self.assertEqual([it.form for it in made], ["xs", "mapSeq", "reverse", "zip"])


class Lengths(unittest.TestCase):
    def test_arithmetic(self) -> None:
        n, m, two = Length.size("N"), Length.size("M"), Length.number(2)
        length = (n * m + n) * two
        self.assertEqual(str(length), "2*M*N + 2*N")
        self.assertEqual(str(length / n), "2*M + 2")
        self.assertEqual(str(length.given({"N": 3})), "6*M + 6")
        self.assertEqual(length.at({"N": 3, "M": 4}), 30)
        self.assertEqual((n / two).at({"N": 5}), Fraction(5, 2))
        self.assertEqual(str(Length.number(1) - n), "-N + 1")
        self.assertEqual(str(n - n), "0")

    def test_no_division(self) -> None:
        with self.assertRaisesRegex(ValueError, "M doesn't divide N"):
            Length.size("N") / Length.size("M")


if __name__ == "__main__":
    unittest.main()
