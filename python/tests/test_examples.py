"""Each example on the device: the value that `lift` gives and the one that is stored."""
from __future__ import annotations

import json
import unittest

from lift_opencl import Function
from lift_opencl.command import lift
from lift_opencl.kernels import Size, told
from lift_opencl.launch_files import inputs_of, to_lists

from .examples import examples


def size(given: int | list[int]) -> Size:
    """A size of a launch file, as a call takes and tells it."""
    return told(*given) if isinstance(given, list) else given


class Examples(unittest.TestCase):
    def test_values(self) -> None:
        """With the work-items that are chosen, and with the launch file's."""
        for example in examples():
            with self.subTest(example.name):
                file = example.told()
                function = Function(example.program, example.script)
                launches = file.get("launches", [file])
                given = inputs_of(file, function.inputs)
                chosen = function.run(given)
                asked_for = [(size(it["global"]), size(it["local"])) for it in launches]
                asked = function.run(
                    given,
                    global_size=[total for total, _ in asked_for],
                    local_size=[local for _, local in asked_for],
                )
                self.assertEqual(function.work_items, asked_for)
                run = "run-stages" if "launches" in file else "run"
                line = lift(run, example.program, example.script, example.launch)
                wanted = json.loads(line)["value"]
                self.assertEqual(to_lists(chosen), wanted)
                self.assertEqual(to_lists(asked), wanted)
                if example.stored() is not None:
                    self.assertEqual(wanted, example.stored())

    def test_sizes(self) -> None:
        """The sizes that the inputs' shapes tell are the launch file's."""
        for example in examples():
            with self.subTest(example.name):
                function = Function(example.program, example.script)
                told = example.told()
                self.assertEqual(function.sizes_of(inputs_of(told, function.inputs)), told["sizes"])

    def test_parameters(self) -> None:
        """A kernel's first line has the buffers and the sizes that it is called with."""
        for example in examples():
            with self.subTest(example.name):
                function = Function(example.program, example.script)
                for kernel in function.kernels:
                    names = [f"__global const uint *{it.name}" for it in kernel.inputs]
                    names += [f"__global uint *{it.name}" for it in kernel.outputs]
                    names += [f"const uint s{k}" for k in range(len(function.sizes))]
                    self.assertIn(f"void {kernel.name}({', '.join(names)})\n", kernel.text)


if __name__ == "__main__":
    unittest.main()
