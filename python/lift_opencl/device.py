"""An OpenCL device, by pyopencl."""
from __future__ import annotations

import re
import warnings
from functools import lru_cache
from typing import Sequence

import numpy
import pyopencl

from .kernels import Kernel, Size, pair

# stands in an output before a kernel runs: where it is left, most likely nobody wrote the cell
UNWRITTEN = 0xDEADBEEF
# a loop over the items of a group with the bound 1
ONE_TURN = re.compile(r"= \(uint\)get_local_id\(\d\); \w+ < 1u;")
POCL = "Portable Computing Language"
PROPERTIES = pyopencl.command_queue_properties


@lru_cache(maxsize=1)
def first_queue() -> pyopencl.CommandQueue:
    """A queue for profiling, of the device that PYOPENCL_CTX names, else of the first one."""
    try:
        context = pyopencl.create_some_context(interactive=False)
    except pyopencl.Error as why:
        raise RuntimeError(f"no OpenCL device: {why}") from None
    return pyopencl.CommandQueue(context, properties=PROPERTIES.PROFILING_ENABLE)


class Device:
    """The kernels of a text, built for the device of a queue."""

    def __init__(self, queue: pyopencl.CommandQueue, text: str, kernels: Sequence[Kernel]) -> None:
        if not queue.properties & PROPERTIES.PROFILING_ENABLE:
            raise ValueError("the queue has no times: it is to be made with PROFILING_ENABLE")
        if queue.properties & PROPERTIES.OUT_OF_ORDER_EXEC_MODE_ENABLE:
            raise ValueError("the queue is out of order, and kernels run one after another")
        self.queue = queue
        if queue.device.platform.name == POCL:
            warn_of_one_turn(kernels)
        program = pyopencl.Program(queue.context, text).build()
        self.kernels = [pyopencl.Kernel(program, it.name) for it in kernels]

    def most_local(self, kernel: int) -> int:
        """How many items a group of a kernel may have here."""
        what = pyopencl.kernel_work_group_info.WORK_GROUP_SIZE
        return self.kernels[kernel].get_work_group_info(what, self.queue.device)

    def buffer(self, words: numpy.ndarray) -> pyopencl.Buffer:
        """A buffer with these words."""
        flags = pyopencl.mem_flags.READ_WRITE | pyopencl.mem_flags.COPY_HOST_PTR
        whole = numpy.ascontiguousarray(words, numpy.uint32)
        return pyopencl.Buffer(self.queue.context, flags, hostbuf=whole)

    def unwritten(self, count: int) -> pyopencl.Buffer:
        return self.buffer(numpy.full(count, UNWRITTEN, numpy.uint32))

    def start(
        self,
        kernel: int,
        work_items: tuple[Size, Size],
        buffers: Sequence[pyopencl.Buffer],
        sizes: Sequence[int],
    ) -> pyopencl.Event:
        """Starts a kernel behind what the queue has; a queue in order runs one after another."""
        total, local = map(pair, work_items)
        arguments = [*buffers, *map(numpy.uint32, sizes)]
        dimensions = 1 if total[1] == 1 else 2
        launch = total[:dimensions], local[:dimensions]
        return self.kernels[kernel](self.queue, *launch, *arguments)

    def read(self, buffer: pyopencl.Buffer, shape: tuple[int, ...]) -> numpy.ndarray:
        words = numpy.empty(shape, numpy.uint32)
        pyopencl.enqueue_copy(self.queue, words, buffer)
        return words

    def seconds(self, event: pyopencl.Event) -> float:
        """How long the device took for a kernel that has ended, by its own clock."""
        return (event.profile.end - event.profile.start) * 1e-9


def warn_of_one_turn(kernels: Sequence[Kernel]) -> None:
    """RuntimeWarning where PoCL 3.1 may run a kernel wrongly, or its compiler may stop."""
    for kernel in kernels:
        if "barrier(" in kernel.text and ONE_TURN.search(kernel.text):
            warnings.warn(
                f"{kernel.name} has barriers, and a loop over a group's items with the bound 1: "
                "PoCL 3.1 may leave its body out, or stop. "
                "With `launch local K` before the script's steps there is no such loop "
                "(docs/HOST.md)",
                RuntimeWarning,
                # that of a call of the function, behind run, _opened and the device
                stacklevel=6,
            )
