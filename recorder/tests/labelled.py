"""Tests of pytest that launch kernels: one of them launches a wrong one."""
import pytest
from kernels import GROUPS, ITEMS, TEXT, Buffer, Device, Local, numbers


@pytest.fixture(scope="module")
def device():
    made = Device()
    return made, made.build(TEXT, "-cl-std=CL3.0")


def launch(device, name):
    made, program = device
    arguments = [Buffer(made, numbers()), Buffer(made, [0] * GROUPS), Local(4 * ITEMS)]
    assert made.launch(made.kernel(program, name), (GROUPS * ITEMS,), (ITEMS,), arguments) == 0


def test_right(device):
    launch(device, "tree_right")


@pytest.mark.parametrize("name", ["tree_wrong", "tree_right"])
def test_each(device, name):
    launch(device, name)


def test_nothing():
    pass
