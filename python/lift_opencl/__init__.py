"""Programs of the Lift pattern language as functions of numpy arrays, on an OpenCL device.

    import numpy
    import lift_opencl as lift

    f = lift.Function("program.lift", "script.txt")
    f(xs=numpy.arange(8))

docs/HOST.md of the repository explains each step.
"""
from .command import LiftError
from .function import Function

__all__ = ["Function", "LiftError"]
