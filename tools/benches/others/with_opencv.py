"""Operations of OpenCV on `UMat`: `with_opencv.py NAME..` runs some of the functions below, or all, and prints a checksum of each result.

Needs OPENCV_OPENCL_DEVICE=:CPU: where no device is a GPU, since OpenCV takes no other one by itself.
"""
import sys
import zlib

import cv2
import numpy as np

RANDOM = np.random.default_rng(1)
GREY, COLOURS = cv2.UMat(RANDOM.integers(0, 256, (48, 64), np.uint8)), cv2.UMat(RANDOM.integers(0, 256, (48, 64, 3), np.uint8))
FLOATS = cv2.UMat(RANDOM.random((48, 64), np.float32))
TURNED = cv2.getRotationMatrix2D((32, 24), 30, 1)


def scaled():
    for way in (cv2.INTER_NEAREST, cv2.INTER_LINEAR, cv2.INTER_AREA):
        yield cv2.resize(COLOURS, (32, 24), interpolation=way)
    for way in (cv2.INTER_NEAREST, cv2.INTER_LINEAR, cv2.INTER_CUBIC):
        yield cv2.warpAffine(GREY, TURNED, (64, 48), flags=way)
    yield cv2.warpPerspective(GREY, np.vstack([TURNED, [0.001, 0, 1]]), (64, 48))
    yield cv2.pyrDown(GREY)
    yield cv2.pyrUp(GREY)


def filtered():
    for size in (3, 5):
        yield cv2.GaussianBlur(GREY, (size, size), 0)
        yield cv2.medianBlur(GREY, size)
        yield cv2.blur(COLOURS, (size, size))
        yield cv2.erode(GREY, np.ones((size, size), np.uint8))
    yield cv2.Sobel(GREY, cv2.CV_16S, 1, 0)
    yield cv2.Laplacian(GREY, cv2.CV_16S)
    yield cv2.bilateralFilter(GREY, 5, 20, 20)
    yield cv2.filter2D(GREY, cv2.CV_16S, np.arange(9, dtype=np.float32).reshape(3, 3))
    yield cv2.Canny(GREY, 60, 120)


def coloured():
    for way in (cv2.COLOR_BGR2GRAY, cv2.COLOR_BGR2HSV, cv2.COLOR_BGR2YUV, cv2.COLOR_BGR2Lab):
        yield cv2.cvtColor(COLOURS, way)
    yield cv2.threshold(GREY, 99, 255, cv2.THRESH_BINARY)[1]
    yield cv2.adaptiveThreshold(GREY, 255, cv2.ADAPTIVE_THRESH_MEAN_C, cv2.THRESH_BINARY, 5, 2)
    yield cv2.inRange(GREY, 50, 100)
    yield cv2.equalizeHist(GREY)
    yield cv2.LUT(GREY, np.arange(255, -1, -1, np.int16).astype(np.uint8))
    yield cv2.merge(cv2.split(COLOURS)[::-1])


def reduced():
    yield np.array(cv2.sumElems(GREY))
    yield np.array(cv2.mean(COLOURS))
    yield np.array(cv2.norm(GREY, cv2.NORM_L1))
    yield np.array(cv2.countNonZero(GREY))
    yield np.array(cv2.minMaxLoc(GREY)[:2])
    for axis in (0, 1):
        yield cv2.reduce(GREY, axis, cv2.REDUCE_SUM, dtype=cv2.CV_32S)
        yield cv2.reduce(GREY, axis, cv2.REDUCE_MAX)
    yield cv2.integral(GREY)
    yield cv2.calcHist([GREY], [0], None, [256], [0, 256])


def computed():
    yield cv2.add(GREY, GREY)
    yield cv2.absdiff(GREY, cv2.flip(GREY, 1))
    yield cv2.addWeighted(GREY, 0.5, cv2.flip(GREY, 0), 0.5, 1)
    yield cv2.bitwise_and(GREY, cv2.bitwise_not(cv2.flip(GREY, -1)))
    yield cv2.compare(GREY, cv2.flip(GREY, 1), cv2.CMP_GT)
    yield cv2.transpose(GREY)
    yield cv2.multiply(FLOATS, FLOATS)
    yield cv2.gemm(FLOATS, cv2.transpose(FLOATS), 1, None, 0)
    yield cv2.matchTemplate(GREY, cv2.UMat(GREY.get()[8:16, 8:16]), cv2.TM_SQDIFF)


assert cv2.ocl.haveOpenCL() and cv2.ocl.useOpenCL()
for name in sys.argv[1:] or ("scaled", "filtered", "coloured", "reduced", "computed"):
    for at, made in enumerate(globals()[name]()):
        result = made.get() if isinstance(made, cv2.UMat) else made
        print(name, at, result.shape, f"{zlib.crc32(np.ascontiguousarray(result).tobytes()):08x}", flush=True)
