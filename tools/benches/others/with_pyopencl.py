"""Small uses of pyopencl: `with_pyopencl.py NAME..` runs some of the functions below, or all, and prints what each computes."""
import sys

import numpy as np
import pyopencl as cl
import pyopencl.array as cl_array
from pyopencl.algorithm import RadixSort, copy_if, unique
from pyopencl.elementwise import ElementwiseKernel
from pyopencl.reduction import ReductionKernel
from pyopencl.scan import GenericScanKernel

CONTEXT = cl.create_some_context(interactive=False)
QUEUE = cl.CommandQueue(CONTEXT)


def scan():
    kernel = GenericScanKernel(CONTEXT, np.int32, arguments="__global int *ary", input_expr="ary[i]", scan_expr="a+b", neutral="0",
                               output_statement="ary[i] = item;")
    numbers = cl_array.arange(QUEUE, 1000, dtype=np.int32)
    kernel(numbers, queue=QUEUE)
    return numbers.get().tolist() == np.cumsum(np.arange(1000)).tolist()


def sort():
    made = RadixSort(CONTEXT, "int *ary", key_expr="ary[i]", sort_arg_names=["ary"])
    given = np.random.default_rng(1).integers(0, 256, 256).astype(np.int32)
    (found,), _ = made(cl_array.to_device(QUEUE, given), key_bits=8, queue=QUEUE)
    return found.get().tolist() == sorted(given.tolist())


def select():
    numbers = cl_array.arange(QUEUE, 300, dtype=np.int32)
    chosen, count, _ = copy_if(numbers, "ary[i] % 3 == 0", queue=QUEUE)
    distinct, number, _ = unique(cl_array.to_device(QUEUE, (np.arange(300) // 4).astype(np.int32)), queue=QUEUE)
    return (chosen.get()[:count.get()].tolist() == list(range(0, 300, 3))
            and distinct.get()[:number.get()].tolist() == list(range(75)))


def reduce():
    kernel = ReductionKernel(CONTEXT, np.int32, neutral="0", reduce_expr="a+b", map_expr="x[i]*y[i]", arguments="__global int *x, __global int *y")
    numbers = cl_array.arange(QUEUE, 1000, dtype=np.int32)
    return int(kernel(numbers, numbers, queue=QUEUE).get()) == sum(at * at for at in range(1000)), int(cl_array.max(numbers).get()) == 999


def arithmetic():
    kernel = ElementwiseKernel(CONTEXT, "int *x, int *y, int *z", "z[i] = 2 * x[i] + y[i]", "twice")
    x = cl_array.arange(QUEUE, 500, dtype=np.int32)
    z = cl_array.empty_like(x)
    kernel(x, x, z)
    return (z.get() == 3 * np.arange(500)).all() and ((x + x * 3).get() == 4 * np.arange(500)).all()


for name in sys.argv[1:] or ("scan", "sort", "select", "reduce", "arithmetic"):
    print(name, globals()[name]())
