#!/usr/bin/env python3
"""Tests of colliding_names.py: `python3 check/test_colliding_names.py`."""
import itertools
import os
import re
import sys
import unittest

sys.dont_write_bytecode = True
sys.path.insert(0, os.path.dirname(os.path.abspath(__file__)))

import colliding_names as made  # noqa: E402

# what a program of the kit prints that has these texts hashed by a FoldHasher
OF_TEXTS = {
    "": 13655596974193556426,
    "abc": 13537862744274862624,
    "kebab-name": 14826122452191059779,
    "krdjibdochvafiyosmubv2uwaaaaaaaa": 1965769296548967568,
    "krdjibdochvafiyosmubv2uwzebrazoo": 1965769296548967568,
    "a-name-of-more-than-thirty-two-letters": 9145757070130341285,
}
# the same of a key `WorldKey::Name`
OF_LABELS = {"abc": 14470846776112491093}


class Hashes(unittest.TestCase):
    def test_they_are_those_of_the_kit(self):
        self.assertEqual(OF_TEXTS, {it: made.hash_of(it) for it in OF_TEXTS})
        self.assertEqual(OF_LABELS, {it: made.hash_of(it, made.LABEL_SEED) for it in OF_LABELS})


class Names(unittest.TestCase):
    def assert_collide(self, names, seed):
        self.assertEqual(3000, len(set(names)))
        self.assertTrue(all(re.fullmatch("[a-z][a-z0-9]{31}", it) for it in names))
        self.assertEqual(1, len({made.hash_of(it, seed) for it in names}))

    def test_names_and_labels_have_one_hash(self):
        self.assert_collide(made.names(3000), made.SEED)
        self.assert_collide(made.labels(3000), made.LABEL_SEED)

    def test_other_texts_have_not(self):
        """Names don't collide as labels, nor those whose beginning is one letter off."""
        self.assertEqual(3000, len({made.hash_of(it, made.LABEL_SEED) for it in made.names(3000)}))
        self.assertEqual(3000, len({made.hash_of(it) for it in made.names(3000, f"l{made.OF_NAMES[1:]}")}))

    def test_a_beginning_is_found(self):
        first, second, third = (made.OF_NAMES[at : at + 8] for at in (0, 8, 16))
        found = made.beginnings(["aaaaaaaa", first], ["bbbbbbbb", second, "cccccccc"])
        self.assertEqual([first + second + third], list(itertools.islice(found, 2)))


if __name__ == "__main__":
    unittest.main()
