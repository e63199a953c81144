"""How long looks into images take: the processor's time, and the best of several tries, as other programs run meanwhile. Run as a program it prints them."""
import time
import unittest

from support import HELLO, DiskCase, model_disk
from yellowadze1541 import Form, Image

TRIES = 7


def best(work):
    """The least time of the processor for some work, in seconds."""
    times = []
    for _ in range(TRIES):
        begun = time.process_time()
        work()
        times.append(time.process_time() - begun)
    return min(times)


def full_directory():
    """An image with 144 files."""
    image = Image.new(Form.D64, "FULL DIRECTORY", "64")
    for number in range(144):
        image.write(f"FILE {number}", b"x")
    return image


class Speed(DiskCase):
    def test_an_image_is_listed_in_a_millisecond(self):
        self.assertLess(best(lambda: Image.open(HELLO).listing()), 0.001)
        self.assertLess(best(lambda: Image.open(HELLO).files()), 0.001)

    def test_500_images_are_listed_in_half_a_second(self):
        paths = [self.file(f"{number}.d64", model_disk(number % 25).image) for number in range(500)]
        self.assertLess(best(lambda: [Image.open(it).listing() for it in paths]), 0.5)

    def test_a_full_directory_is_sorted_in_a_tenth_of_a_second(self):
        data = full_directory().bytes
        self.assertLess(best(lambda: Image(data).sort()), 0.1)


if __name__ == "__main__":
    full = full_directory()
    for name, seconds in (
        ("one file, opened and listed", best(lambda: Image.open(HELLO).listing())),
        ("one file, opened, its entries", best(lambda: Image.open(HELLO).files())),
        ("144 files, listed", best(full.listing)),
        ("144 files, sorted", best(lambda: Image(full.bytes).sort())),
        ("144 files, checked", best(full.check)),
    ):
        print(f"{name}: {seconds * 1000:.2f} ms")
