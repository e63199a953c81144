"""Names as text: all codes in both sets, against disk1541."""
import unittest

from support import DiskCase, json_of, model_disk
from yellowadze1541 import Charset, Image, codes, text

# (the code that ends a name isn't in one)
CODES = bytes(it for it in range(256) if it != 0xA0)
NAMES = [CODES[n : n + 15] for n in range(0, len(CODES), 15)]


class Names(DiskCase):
    def test_all_codes_are_shown_as_disk1541_shows_them(self):
        path = self.file("names.d64", model_disk(1, NAMES).image)
        for charset in Charset:
            with self.subTest(charset=charset):
                said = {bytes.fromhex(it["petscii"]): it["name"] for it in json_of(path, "--charset", charset.value)["files"]}
                self.assertEqual(said, {name: text(name, charset) for name in NAMES})

    def test_the_shifted_space_is_shown_by_its_number(self):
        self.assertEqual(text(b"\xa0"), "{a0}")

    def test_what_is_shown_is_taken_back(self):
        every = bytes(range(256))
        for charset in Charset:
            self.assertEqual(codes(text(every, charset), charset), every)

    def test_small_letters_mean_the_capital_ones_at_power_up(self):
        self.assertEqual(codes("hello"), b"HELLO")
        self.assertEqual(codes("Hello", Charset.LOWER), b"\xc8ELLO")

    def test_an_underscore_is_the_line_at_the_foot(self):
        self.assertEqual(codes("_"), bytes([164]))

    def test_what_no_key_has_is_refused(self):
        for wrong in ("é", "~", "{", "{c", "{zz}", "\n"):
            with self.subTest(wrong=wrong), self.assertRaises(ValueError):
                codes(wrong)

    def test_the_directory_is_listed_in_both_sets(self):
        for seed in range(8):
            disk = model_disk(seed)
            image = Image(disk.image)
            self.assertEqual(image.listing(), disk.listing())
            self.assertEqual([it.name for it in image.files()], [it.name for it in disk.files])


if __name__ == "__main__":
    unittest.main()
