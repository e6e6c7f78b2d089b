"""A program and a script as a function of numpy arrays."""
from __future__ import annotations

import os
import sys
import tempfile
from contextlib import contextmanager
from pathlib import Path
from typing import Any, Iterator, Mapping, Sequence, Union

from .array_types import element, given, shape
from .arrays import Value, Words, components_of, nested
from .command import LiftError, lift
from .explained import explained
from .kernels import Kernel, Size, kernels
from .program import declarations, last_term, of_one_kernel
from .refusals import where
from .sizes import Sizes, admitted, sizes_of
from .term_types import with_types

File = Union[str, os.PathLike]
# a number of work-items, or a tuple for rows of them: chosen, one for all kernels, or one for each
WorkItems = Union[None, Size, Sequence[Union[None, Size]]]
# the status of `lift` where it can't read a file
NOT_READ = 3


class Function:
    """A Lift program as a function, compiled along a script.

        double = Function("program.lift", "script.txt")
        double(xs=numpy.arange(8))

    The files are read and compiled at once; the device is opened at the first call. LiftError where
    `lift` refuses a file; its line is in it.

    Attributes:

    - `sizes`, `inputs`: the declared sizes and the types of the inputs, by name;
    - `output`: the output's type;
    - `text`: the kernels in OpenCL C, and `kernels`, what is known of each, in order;
    - `times`: of the last call, the seconds that the device took for each kernel, by its own clock;
    - `work_items`: of the last call, the global and the local size of each kernel.
    """

    def __init__(
        self,
        program: File,
        script: File,
        *,
        lift_program: str | None = None,
        queue: Any = None,
    ) -> None:
        """`lift_program` is the program `lift`, where it isn't to be looked for.

        `queue` is a pyopencl.CommandQueue, in order and made for profiling; where none is given it
        is one of the first device, or of that which the environment's PYOPENCL_CTX names.
        """
        if any("\n" in str(it) for it in (program, script)):
            raise ValueError("Function takes the names of files; Function.from_text takes texts")
        self._lift, self._files = lift_program, (program, script)
        steps = self._made("steps")
        with deep_recursion():
            declared = declarations(text_of(program))
            term = last_term(steps)
            self.output = with_types(term, declared.inputs)
        several = any(it.is_then() for it in of_one_kernel(term))
        self.text = self._made("stages" if several else "compile")
        self.sizes, self.inputs = declared.sizes, declared.inputs
        self.kernels: list[Kernel] = kernels(self.text, term, declared)
        self.times: list[float] | None = None
        self.work_items: list[tuple[int, int]] | None = None
        self._queue: Any = queue
        self._device: Any = None

    @classmethod
    def from_text(cls, program: str, script: str, **options: Any) -> Function:
        """The same of the texts of a program and a script."""
        with tempfile.TemporaryDirectory() as folder:
            files = Path(folder, "program.lift"), Path(folder, "script.txt")
            for file, text in zip(files, (program, script)):
                file.write_text(text)
            return cls(*files, **options)

    def __call__(
        self,
        /,
        *arrays: Any,
        global_size: WorkItems = None,
        local_size: WorkItems = None,
        **inputs_and_sizes: Any,
    ) -> Value:
        """The program's value on numpy arrays, in the order of its inputs or by their names.

        An input is an array of uint32, or one of other whole numbers that are words of 32 bits.
        Where its elements are pairs, it is a tuple of two, or an array with one more axis for the
        pair's numbers. Sizes follow from the shapes; others are given by name.

        The value is an array of uint32, or a tuple of two where its elements are pairs.

        `global_size` and `local_size` are lists with a number for each kernel, or one number for
        all that aren't for one work-item. Where a kernel has a map over rows, a tuple of two is in
        place of a number: how many work-items a row has, and how many rows.

        TypeError, ValueError: what is given doesn't fit the program; nothing was run.
        """
        if len(arrays) > len(self.inputs):
            raise TypeError(f"{len(arrays)} arrays for {len(self.inputs)} inputs")
        inputs: dict[str, Any] = dict(zip(self.inputs, arrays))
        sizes: dict[str, Any] = {}
        for name, value in inputs_and_sizes.items():
            if name in inputs:
                raise TypeError(f"the input {name} is given twice")
            (sizes if name in self.sizes else inputs)[name] = value
        return self.run(inputs, sizes, global_size=global_size, local_size=local_size)

    def run(
        self,
        inputs: Mapping[str, Any],
        sizes: Sizes = {},
        *,
        global_size: WorkItems = None,
        local_size: WorkItems = None,
    ) -> Value:
        """The same, with inputs and sizes in dictionaries: for names that Python reserves."""
        components = self._components(inputs)
        found = self._sizes_of(components, sizes)
        device = self._opened()
        asked = zip(self.kernels, self._each(global_size), self._each(local_size))
        chosen = [
            kernel.work_items(found, device.most_local(k), total, local)
            for k, (kernel, total, local) in enumerate(asked)
        ]
        buffers = [device.buffer(it) for its in components.values() for it in its]
        events = []
        for k, kernel in enumerate(self.kernels):
            made = [device.unwritten(it.count(found)) for it in kernel.outputs]
            buffers += made
            events.append(device.start(k, chosen[k], buffers, list(found.values())))
        outputs = iter([device.read(it, shape(self.output, found)) for it in made])
        self.times, self.work_items = [device.seconds(it) for it in events], chosen
        return nested(outputs, element(self.output))

    def sizes_of(self, inputs: Mapping[str, Any], sizes: Sizes = {}) -> dict[str, int]:
        """The declared sizes that the inputs' shapes tell, and those that are given."""
        return self._sizes_of(self._components(inputs), sizes)

    def explain(self, **sizes: int) -> None:
        """Prints the kernels, each with its parameters in order.

        Of a buffer it tells what it holds, its type and its length in words, as far as the sizes
        are told.
        """
        print("\n".join(self.explained(sizes)))

    def explained(self, sizes: Sizes = {}) -> Iterator[str]:
        """The lines that `explain` prints."""
        known("size", sizes, self.sizes)
        told = {name: admitted(self.sizes[name], value) for name, value in sizes.items()}
        for kernel in self.kernels:
            yield f"{kernel.name}: {launches(kernel)}"
            rows = [
                (it.name, it.holds, str(given(it.type, told)), f"length {it.words(told)}")
                for it in [*kernel.inputs, *kernel.outputs]
            ]
            rows += [
                (f"s{k}", f"{name} = {told[name]}" if name in told else str(size), "uint", "")
                for k, (name, size) in enumerate(self.sizes.items())
            ]
            widths = [max(map(len, column)) for column in zip(*rows)]
            for row in rows:
                yield "  " + "  ".join(map(str.ljust, row, widths)).rstrip()

    def __repr__(self) -> str:
        inputs = ", ".join(f"{name}: {type}" for name, type in self.inputs.items())
        sizes = "; ".join(map(str, self.sizes.values()))
        return f"<Function ({inputs}) -> {self.output}; {sizes}>"

    @property
    def queue(self) -> Any:
        """The pyopencl.CommandQueue that the kernels run on."""
        if self._queue is None:
            from .device import first_queue

            self._queue = first_queue()
        return self._queue

    def _made(self, command: str) -> str:
        """What `lift` makes of the files."""
        try:
            return lift(command, *self._files, program=self._lift)
        except LiftError as error:
            if error.status in (None, NOT_READ):
                raise
            texts = [text_of(it) for it in self._files]
            about = explained(error.line, command, *texts, lift=self._lift)
            raise LiftError(error.line, error.status, about or where(error.line, *texts)) from None

    def _components(self, inputs: Mapping[str, Any]) -> dict[str, list[Words]]:
        """The arrays of each input's components."""
        known("input", inputs, self.inputs)
        for name, type in self.inputs.items():
            if name not in inputs:
                raise TypeError(f"the input {name} is missing, of type {type}")
        return {name: components_of(name, inputs[name], it) for name, it in self.inputs.items()}

    def _sizes_of(self, components: Mapping[str, list[Words]], sizes: Sizes) -> dict[str, int]:
        known("size", sizes, self.sizes)
        shapes = {name: its[0].shape for name, its in components.items()}
        return sizes_of(self.sizes, self.inputs, shapes, sizes)

    def _each(self, number: WorkItems) -> Sequence[Size | None]:
        """A number of work-items for each kernel."""
        if isinstance(number, Sequence) and not isinstance(number, tuple):
            numbers = list(number)
        else:
            several = len(self.kernels) > 1
            numbers = [None if several and it.one_item else number for it in self.kernels]
        if len(numbers) != len(self.kernels):
            count = len(self.kernels)
            raise ValueError(f"{len(numbers)} numbers of work-items for {count} kernels")
        if not all(it is None or is_size(it) for it in numbers):
            raise TypeError("a number of work-items is a whole number, or a tuple of two")
        return numbers

    def _opened(self) -> Any:
        if self._device is None:
            from .device import Device

            self._device = Device(self.queue, self.text, self.kernels)
        return self._device


def text_of(file: File) -> str:
    return Path(file).read_bytes().decode("latin-1")


def is_size(size: Any) -> bool:
    """Whether it is a whole number, or a tuple of two."""
    parts = size if isinstance(size, tuple) and len(size) == 2 else (size,)
    return all(hasattr(it, "__index__") for it in parts)


def known(what: str, given: Mapping[str, Any], declared: Mapping[str, Any]) -> None:
    """TypeError where a name is given that the program doesn't declare."""
    for name in given:
        if name not in declared:
            has = ", ".join(declared) or "none"
            raise TypeError(f"the program has no {what} {name}; it has {has}")


def launches(kernel: Kernel) -> str:
    """Which work-items a kernel takes, in words."""
    if kernel.one_item:
        return "one work-item, global size 1 and local size 1"
    local = kernel.local_size or "1 to 256"
    rows = "" if kernel.one_row else ", both along rows and from row to row"
    return f"local size {local}, global size a multiple of it up to 65536{rows}"


@contextmanager
def deep_recursion() -> Iterator[None]:
    """Terms are at most 256 high, and each level takes some calls."""
    before = sys.getrecursionlimit()
    sys.setrecursionlimit(max(before, 5000))
    try:
        yield
    finally:
        sys.setrecursionlimit(before)
