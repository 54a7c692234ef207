"""An image filter in Python: a picture is blurred and brightened, in an array.array and in a NumPy array.

    python3 examples/python/filter.py

The last line says whether both are the same bytes. Needs NumPy for the second.
"""
import array
import pathlib
import sys

ROOT = pathlib.Path(__file__).resolve().parents[2]
sys.path.insert(0, str(ROOT / "python"))
import isp

WIDTH, HEIGHT = 320, 200


def kernel(name):
    """Returns a kernel of the folder examples, for sixteen instances."""
    return isp.compile((ROOT / "examples" / f"{name}.ispc").read_text(), gang=16)


def filtered(image, blurred):
    """Blurs the image into `blurred`, and brightens that."""
    kernel("blur").blur(image=image, blurred=blurred, width=WIDTH, height=HEIGHT)
    kernel("brighten").brighten(pixels=blurred, count=WIDTH * HEIGHT, level=40)
    return bytes(blurred)


def pixel(x, y):
    return (x * x + y * y) // 64 % 256


def main():
    image = array.array("B", [pixel(x, y) for y in range(HEIGHT) for x in range(WIDTH)])
    by_array = filtered(image, array.array("B", bytes(WIDTH * HEIGHT)))
    import numpy

    y, x = numpy.mgrid[0:HEIGHT, 0:WIDTH]
    picture = pixel(x, y).astype(numpy.uint8)
    by_numpy = filtered(picture, numpy.zeros_like(picture))
    print("the same bytes" if by_array == by_numpy else "other bytes")
    return by_array != by_numpy


if __name__ == "__main__":
    sys.exit(main())
