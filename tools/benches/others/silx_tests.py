"""silx's own tests of images or of its median filter, `silx_tests.py image` or `medfilt`, with an image of random bytes in place of the one to load."""
import os
import sys
import tempfile
import unittest

import numpy as np
from PIL import Image
from silx.opencl.test import test_image, test_medfilt

CASES = {"image": test_image.TestImage, "medfilt": test_medfilt.TestMedianFilter}

with tempfile.TemporaryDirectory() as room:
    file = os.path.join(room, "image.png")
    Image.fromarray(np.random.default_rng(1).integers(0, 256, (512, 512, 3), dtype="uint8")).save(file)
    test_image.utilstest.getfile = lambda name: file
    ran = unittest.TextTestRunner().run(unittest.defaultTestLoader.loadTestsFromTestCase(CASES[sys.argv[1]]))
sys.exit(not ran.wasSuccessful())
