"""What is given to a function: arrays, sizes, work-items."""
import unittest
import warnings

import numpy
import pyopencl
from lift_opencl import Function
from lift_opencl.device import POCL, first_queue

ADD = r"""
size N multiple 2 from 2 to 100;
input xs: [u32; N];
input ys: [u32; N];
output map(\p. add(first(p), second(p)), zip(xs, ys))
"""
PAIRS = r"""
size N from 1 to 100;
input ps: [(u32, (u32, u32)); N];
output map(\p. pair(second(p), first(p)), ps)
"""
ROWS = r"""
size M from 1 to 100;
size N from 1 to 100;
input xs: [[u32; M]; N];
output map(\row. map(\x. add(x, 1), row), xs)
"""
HALVES = r"""
size M from 1 to 50;
size N from 1 to 50;
size K from 1 to 8;
input xs: [u32; M*N];
input squares: [u32; N*N + 1];
output map(\x. add(x, 1), join(split(N, xs)))
"""
SUM = r"""
size T from 1 to 100;
input xs: [[u32; 16]; T];
output reduce(add, 0, join(map(\r. reduce(add, 0, r), xs)))
"""
SUM_SCRIPT = """
at 0.0.1 reduce-fold
at 0.0.1 fold-seq
at 0.0 to-glb
at 0 then
at . reduce-fold
at . fold-seq
"""
ITEMS = "at . to-glb"


def add(script: str = ITEMS) -> Function:
    return Function.from_text(ADD, script)


def zeros(*shape: int) -> numpy.ndarray:
    return numpy.zeros(shape, numpy.uint32)


class Arrays(unittest.TestCase):
    def test_whole_numbers(self) -> None:
        """Each type of whole numbers is taken, where all of them are words."""
        xs, ys = numpy.array([1, 2**32 - 1, 3, 4]), numpy.array([1, 1, 1, 1])
        for type in (numpy.uint32, numpy.int64, numpy.uint64, ">u4"):
            with self.subTest(type):
                value = add()(xs=xs.astype(type), ys=ys.tolist())
                self.assertEqual(value.dtype, numpy.uint32)
                self.assertEqual(value.tolist(), [2, 0, 4, 5])

    def test_layouts(self) -> None:
        """Arrays that aren't contiguous are read by their indices."""
        xs = numpy.arange(8, dtype=numpy.uint32)
        self.assertEqual(add()(xs=xs[::-2], ys=zeros(8)[:4]).tolist(), [7, 5, 3, 1])

    def test_other_numbers(self) -> None:
        calls = {
            (1.5, 2): "xs has numbers of type float64",
            (1, -1): r"xs has -1 at \[1\]",
            (2**32, 1): r"xs has 4294967296 at \[0\]",
            ("a", "b"): "xs has numbers of type <U1",
            ((1, 2), (3,)): "xs: setting an array element with a sequence",
        }
        for xs, message in calls.items():
            with self.subTest(xs):
                with self.assertRaisesRegex((TypeError, ValueError), message):
                    add()(xs=list(xs), ys=[1, 2])

    def test_pairs(self) -> None:
        """A pair is a tuple, and an array with the numbers along its last axis is the same."""
        function = Function.from_text(PAIRS, "at . to-seq")
        a, b, c = numpy.arange(12).reshape(3, 4)
        for ps in ((a, (b, c)), (a, numpy.stack([b, c], axis=1)), numpy.stack([a, b, c], axis=1)):
            (first, second), last = function(ps=ps)
            self.assertEqual(
                [it.tolist() for it in (first, second, last)], [b.tolist(), c.tolist(), a.tolist()]
            )
        for ps in ([a, b], [(1, 2), (3, 4)], a, (a, b)):
            with self.assertRaisesRegex(TypeError, "ps has elements .* tuple"):
                function(ps=ps)
        with self.assertRaisesRegex(ValueError, "different shapes"):
            function(ps=(a, (b, c[:3])))

    def test_names(self) -> None:
        with self.assertRaisesRegex(TypeError, "no input zs; it has xs, ys"):
            add()(xs=[1, 2], ys=[1, 2], zs=[1, 2])
        with self.assertRaisesRegex(TypeError, r"input ys is missing, of type \[u32; N\]"):
            add()(xs=[1, 2])

    def test_in_order(self) -> None:
        self.assertEqual(add()([1, 2], [3, 4]).tolist(), [4, 6])
        self.assertEqual(add()([1, 2], ys=[3, 4]).tolist(), [4, 6])
        with self.assertRaisesRegex(TypeError, "3 arrays for 2 inputs"):
            add()([1, 2], [3, 4], [5, 6])
        with self.assertRaisesRegex(TypeError, "the input xs is given twice"):
            add()([1, 2], xs=[3, 4])

    def test_names_of_python(self) -> None:
        function = Function.from_text(ADD.replace("xs", "lambda").replace("ys", "self"), ITEMS)
        self.assertEqual(function.run({"lambda": [1, 2], "self": [3, 4]}).tolist(), [4, 6])
        self.assertEqual(function([1, 2], self=[3, 4]).tolist(), [4, 6])


class Sizes(unittest.TestCase):
    def test_from_shapes(self) -> None:
        self.assertEqual(add().sizes_of({"xs": zeros(6), "ys": zeros(6)}), {"N": 6})

    def test_of_products(self) -> None:
        """N follows from N*N + 1, then M from M*N; no input tells K."""
        function = Function.from_text(HALVES, ITEMS)
        given = {"xs": zeros(15), "squares": zeros(26)}
        self.assertEqual(function.sizes_of(given, {"K": 2}), {"M": 3, "N": 5, "K": 2})
        self.assertEqual(function(**given, K=2).tolist(), [1] * 15)
        with self.assertRaisesRegex(TypeError, "no input's shape tells K: give it, as K=8"):
            function(**given)
        with self.assertRaisesRegex(ValueError, "K is 9, and the program has size K from 1 to 8"):
            function(**given, K=9)
        with self.assertRaisesRegex(ValueError, "squares has 27 elements .* no N from 1 to 50"):
            function(xs=zeros(15), squares=zeros(27), K=2)
        with self.assertRaisesRegex(ValueError, r"xs has 16 .* where N = 5"):
            function(xs=zeros(16), squares=zeros(26), K=2)

    def test_of_polynomials(self) -> None:
        text = r"size N multiple 3 from 3 to 900; input xs: [u32; LENGTH]; output map(\x. x, xs)"
        lengths = {"N*N*N - 2*N*N + 1": 63 * 63 * 61 + 1, "2*N - 5": 121, "7 + N*N": 3976}
        for length, elements in lengths.items():
            function = Function.from_text(text.replace("LENGTH", length), ITEMS)
            self.assertEqual(function.sizes_of({"xs": zeros(elements)}), {"N": 63})
            for other in (elements - 1, elements + 1):
                with self.assertRaisesRegex(ValueError, f"xs has {other} elements"):
                    function.sizes_of({"xs": zeros(other)})

    def test_of_no_effect(self) -> None:
        """N is in the length, and at M = 1 the length doesn't tell it."""
        text = r"""
            size M from 1 to 9; size N from 1 to 9;
            input ys: [u32; M]; input xs: [u32; M*N - N + 1];
            output map(\x. x, xs)"""
        function = Function.from_text(text, ITEMS)
        given = {"ys": zeros(2), "xs": zeros(8)}
        self.assertEqual(function.sizes_of(given), {"M": 2, "N": 7})
        with self.assertRaisesRegex(TypeError, "no input's shape tells N"):
            function.sizes_of({"ys": zeros(1), "xs": zeros(1)})

    def test_not_admitted(self) -> None:
        calls = {
            (3, 3): "xs has 3 elements along N: no N multiple 2 from 2 to 100 gives that",
            (102, 102): "xs has 102 elements",
            (0, 2): "xs has 0 elements",
            (4, 6): "ys has 6 elements along N, which is 4 where N = 4",
        }
        for (xs, ys), message in calls.items():
            with self.subTest(message):
                with self.assertRaisesRegex(ValueError, message):
                    add()(xs=zeros(xs), ys=zeros(ys))
        with self.assertRaisesRegex(
            ValueError, r"xs is \[u32; N\], an array of 1 axis, and its shape is \(2, 2\)"
        ):
            add()(xs=zeros(2, 2), ys=zeros(2))


class WorkItems(unittest.TestCase):
    def test_chosen(self) -> None:
        """An item for each element, in groups of at most 64."""
        kernel = add().kernels[0]
        self.assertEqual(kernel.work_items({"N": 100}, 256), (128, 64))
        self.assertEqual(kernel.work_items({"N": 2}, 256), (2, 2))
        self.assertEqual(kernel.work_items({"N": 100}, 16), (112, 16))
        self.assertEqual(kernel.work_items({"N": 100}, 256, global_size=96), (96, 48))
        self.assertEqual(kernel.work_items({"N": 100}, 256, local_size=5), (100, 5))
        self.assertEqual(kernel.work_items({"N": 10**6}, 256), (65536, 64))
        self.assertEqual(kernel.work_items({"N": 10**6}, 256, local_size=100), (65500, 100))

    def test_one_turn(self) -> None:
        """What PoCL gets wrong by larger groups is warned of, and not where the size is fixed."""
        text = r"""
            size R from 1 to 9; input a: [[u32; 8]; R];
            output map(\row.
              let least = join(map(\all. reduce(min, 9, all), split(8, row))) in
              map(\p. sub(first(p), second(p)), zip(row, pad(0, 7, least))), a)"""
        script = """
            at 1.0.0.1 reduce-fold
            at 1.0.0.1 fold-seq
            at 1.0.0 to-lcl
            at 1.0.0 local
            at 1.1 to-lcl
            at . to-wrg"""
        a = numpy.arange(8 * 3).reshape(3, 8) % 7
        with warnings.catch_warnings():
            warnings.simplefilter("error")
            value = Function.from_text(text, "launch local 8" + script)(a)
            numpy.testing.assert_array_equal(value, a - a.min(axis=1, keepdims=True))
        function = Function.from_text(text, script)
        if function.queue.device.platform.name == POCL:
            with self.assertWarnsRegex(RuntimeWarning, "lift has barriers, and a loop") as caught:
                function(a, local_size=2)
            self.assertEqual(caught.filename, __file__)

    def test_fixed_local_size(self) -> None:
        kernel = add("launch local 7\n" + ITEMS).kernels[0]
        self.assertEqual(kernel.work_items({"N": 100}, 256), (105, 7))
        self.assertEqual(kernel.work_items({"N": 100}, 256, global_size=14), (14, 7))
        with self.assertRaisesRegex(ValueError, "groups have at most 4 items"):
            kernel.work_items({"N": 100}, 4)

    def test_given(self) -> None:
        function = add()
        for items in ((1, 1), (15, 3), (512, 256)):
            value = function(xs=[1, 2], ys=[3, 4], global_size=items[0], local_size=items[1])
            self.assertEqual(value.tolist(), [4, 6])
            self.assertEqual(function.work_items, [items])
            self.assertEqual(len(function.times), 1)
            self.assertGreater(function.times[0], 0)

    def test_not_admitted(self) -> None:
        calls = {(10, 3): "local divides", (512, 512): "local is 1 to 256", (2**17, 1): "65536"}
        for (total, local), message in calls.items():
            with self.subTest(message):
                with self.assertRaisesRegex(ValueError, message):
                    add()(xs=[1, 2], ys=[3, 4], global_size=total, local_size=local)
        for number in (0, -1):
            for size in ("global_size", "local_size"):
                with self.assertRaisesRegex(ValueError, "local is 1 to 256"):
                    add()(xs=[1, 2], ys=[3, 4], **{size: number})
        with self.assertRaisesRegex(TypeError, "a number of work-items is a whole number"):
            add()(xs=[1, 2], ys=[3, 4], local_size="1")
        with self.assertRaisesRegex(ValueError, "for groups of 8"):
            add("launch local 8\n" + ITEMS)(xs=[1, 2], ys=[3, 4], local_size=4)
        with self.assertRaisesRegex(ValueError, "for one work-item"):
            add("at . to-seq")(xs=[1, 2], ys=[3, 4], local_size=4)

    def test_rows(self) -> None:
        """A kernel with a map over rows takes tuples; one without takes one row."""
        function = Function.from_text(ROWS, "at 1 to-glb\nat . to-glb1")
        kernel, xs = function.kernels[0], numpy.arange(6).reshape(2, 3)
        self.assertEqual(kernel.work_items({"M": 100, "N": 30}, 256), ((128, 30), 64))
        self.assertEqual(kernel.work_items({"M": 3, "N": 2}, 256), ((3, 2), (3, 2)))
        self.assertEqual(function(xs).tolist(), [[1, 2, 3], [4, 5, 6]])
        self.assertEqual(function.work_items, [((3, 2), (3, 2))])
        for sizes in ((1, 1), ((2, 2), 1), ((6, 8), (3, 4))):
            value = function(xs, global_size=sizes[0], local_size=sizes[1])
            self.assertEqual(value.tolist(), [[1, 2, 3], [4, 5, 6]])
            self.assertEqual(function.work_items, [sizes])
        fixed = Function.from_text(ROWS, "launch local 4 2\nat 1 to-glb\nat . to-glb1")
        self.assertEqual(fixed.kernels[0].local_size, (4, 2))
        self.assertEqual(fixed(xs).tolist(), [[1, 2, 3], [4, 5, 6]])
        with self.assertRaisesRegex(ValueError, "for one row of work-items"):
            add()(xs=[1, 2], ys=[3, 4], global_size=(2, 2), local_size=1)
        with self.assertRaisesRegex(ValueError, "local divides"):
            function(xs, global_size=(4, 3), local_size=(2, 2))
        with self.assertRaisesRegex(ValueError, r"for groups of \(4, 2\)"):
            fixed(xs, local_size=8)

    def test_kernels_in_order(self) -> None:
        """One number is for the kernels that take it, a list has one for each."""
        function = Function.from_text(SUM, SUM_SCRIPT)
        xs = numpy.arange(160).reshape(10, 16)
        for local in (None, 5, [5, 1]):
            self.assertEqual(function(xs=xs, local_size=local).tolist(), [12720])
            self.assertEqual(len(function.times), 2)
        self.assertEqual(function.work_items, [(10, 5), (1, 1)])
        with self.assertRaisesRegex(ValueError, "3 numbers of work-items for 2 kernels"):
            function(xs=xs, local_size=[5, 1, 1])


class Queues(unittest.TestCase):
    def test_given(self) -> None:
        context, properties = first_queue().context, pyopencl.command_queue_properties
        queue = pyopencl.CommandQueue(context, properties=properties.PROFILING_ENABLE)
        function = Function.from_text(ADD, ITEMS, queue=queue)
        self.assertEqual(function([1, 2], [3, 4]).tolist(), [4, 6])
        self.assertIs(function.queue, queue)

    def test_not_fit(self) -> None:
        context, properties = first_queue().context, pyopencl.command_queue_properties
        both = properties.PROFILING_ENABLE | properties.OUT_OF_ORDER_EXEC_MODE_ENABLE
        for made, message in ((0, "the queue has no times"), (both, "out of order")):
            queue = pyopencl.CommandQueue(context, properties=made)
            with self.assertRaisesRegex(ValueError, message):
                Function.from_text(ADD, ITEMS, queue=queue)([1, 2], [3, 4])


class Explained(unittest.TestCase):
    def test_lines(self) -> None:
        function = Function.from_text(SUM, SUM_SCRIPT)
        words = [line.split() for line in function.explained({"T": 10})]
        self.assertEqual(words[1], "a0 xs [[u32; 16]; 10] length 160".split())
        self.assertEqual(words[2], "o0 what lift0 makes [u32; 10] length 10".split())
        self.assertEqual(words[3], "s0 T = 10 uint".split())
        self.assertEqual(words[6], "a1 what lift0 makes [u32; 10] length 10".split())
        with self.assertRaisesRegex(TypeError, "no size N; it has T"):
            function.explain(N=1)


if __name__ == "__main__":
    unittest.main()
