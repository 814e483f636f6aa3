"""Kernels of silx: `with_silx.py NAME..` runs some of the functions below, or all, and prints whether the result is right."""
import sys

import numpy as np
import scipy.ndimage
from silx.opencl.codec.byte_offset import ByteOffset
from silx.opencl.convolution import Convolution
from silx.opencl.image import ImageProcessing
from silx.opencl.medfilt import MedianFilter2D

IMAGE = np.random.default_rng(1).integers(0, 200, (12, 16)).astype(np.float32)


def medfilt2d():
    found = MedianFilter2D(IMAGE.shape, kernel_size=(3, 3)).medfilt2d(IMAGE)
    return (found == scipy.ndimage.median_filter(IMAGE, (3, 3), mode="nearest")).all()


def image():
    processing = ImageProcessing(template=IMAGE)
    counts, _ = processing.histogram(IMAGE, nbins=16, range=[0, 200])
    scaled = processing.normalize(IMAGE, -100, 100, copy=True)
    return (counts == np.histogram(IMAGE, 16, (0, 200))[0]).all(), abs(scaled.min() + 100) < 0.01, abs(scaled.max() - 100) < 0.01


def byte_offset():
    numbers = np.random.default_rng(2).poisson(50, 300).astype(np.int32)
    numbers[::50] += 100000
    codec = ByteOffset(raw_size=2000, dec_size=numbers.size)
    packed = codec.encode(numbers)
    return (codec.decode(packed.get().tobytes()).get() == numbers).all()


def convolution():
    kernel = np.array([1, 2, 1], np.float32)
    found = Convolution((200,), kernel)(np.arange(200, dtype=np.float32))
    return abs(np.asarray(found.get() if hasattr(found, "get") else found)[1:-1] - 4 * np.arange(1, 199)).max() < 0.01


for name in sys.argv[1:] or ("medfilt2d", "image", "byte_offset", "convolution"):
    print(name, globals()[name]())
