"""Files are written whole or not at all, and over another only where that is asked for."""

import errno
import os
import resource
import shutil
import stat
import tempfile
import unittest
from unittest import mock

from common import content, write
from m2mlib.files import store
from m2mlib.trouble import Trouble


def failing(number):
    return mock.Mock(side_effect=OSError(number, os.strerror(number)))


class Stored(unittest.TestCase):
    def setUp(self):
        self.folder = tempfile.mkdtemp()
        self.addCleanup(shutil.rmtree, self.folder)
        write(self.folder, old_txt=b"old")
        self.old, self.new = (os.path.join(self.folder, name) for name in ("old.txt", "new.txt"))

    def assert_folder(self, **files):
        there = {name.replace("_", "."): data for name, data in files.items()}
        self.assertEqual({name: content(self.folder, name) for name in os.listdir(self.folder)}, there)

    def test_a_new_file(self):
        os.chmod(self.old, 0o640)
        self.assertTrue(store(self.new, b"data", self.old))
        self.assert_folder(old_txt=b"old", new_txt=b"data")
        self.assertEqual(stat.S_IMODE(os.stat(self.new).st_mode), 0o640)

    def test_never_over_a_file(self):
        self.assertFalse(store(self.old, b"data", self.old))
        os.symlink("nowhere", self.new)
        self.assertFalse(store(self.new, b"data", self.old))
        self.assertEqual(os.readlink(self.new), "nowhere")
        os.unlink(self.new)
        self.assert_folder(old_txt=b"old")

    def test_a_file_that_comes_in_between(self):
        with mock.patch("os.path.lexists", lambda path: False):
            self.assertFalse(store(self.old, b"data", self.old))
            with mock.patch("os.link", failing(errno.EPERM)):
                self.assertFalse(store(self.old, b"data", self.old))
        self.assert_folder(old_txt=b"old")

    def test_over_a_file(self):
        self.assertTrue(store(self.old, b"data", self.old, over=True))
        self.assertTrue(store(self.new, b"more", self.old, over=True))
        self.assert_folder(old_txt=b"data", new_txt=b"more")

    def test_over_what_a_link_leads_to(self):
        os.symlink("old.txt", self.new)
        self.assertTrue(store(self.new, b"data", self.old, over=True))
        self.assertEqual(os.readlink(self.new), "old.txt")
        self.assertEqual(content(self.old), b"data")

    def test_a_file_system_without_links(self):
        with mock.patch("os.link", failing(errno.EPERM)):
            self.assertTrue(store(self.new, b"data", self.old))
        self.assert_folder(old_txt=b"old", new_txt=b"data")

    def assert_told(self, words, path, **named):
        with self.assertRaises(Trouble) as caught:
            store(path, b"data" * 1000, self.old, **named)
        self.assertIn(words, str(caught.exception))
        self.assert_folder(old_txt=b"old")

    def test_what_fails_leaves_nothing(self):
        for over in (False, True):
            for function, number in (("os.fsync", errno.EIO), ("tempfile.mkstemp", errno.EACCES)):
                with mock.patch(function, failing(number)):
                    self.assert_told(os.strerror(number), self.new, over=over)
        for over, path in ((False, self.new), (True, self.new), (True, self.old)):
            with mock.patch("os.link", failing(errno.EPERM)), mock.patch("os.replace", failing(errno.ENOSPC)):
                self.assert_told("No space left", path, over=over)

    def test_an_interruption_leaves_nothing(self):
        with mock.patch("os.fsync", side_effect=KeyboardInterrupt), self.assertRaises(KeyboardInterrupt):
            store(self.new, b"data", self.old)
        self.assert_folder(old_txt=b"old")

    def test_no_room(self):
        before = resource.getrlimit(resource.RLIMIT_FSIZE)
        resource.setrlimit(resource.RLIMIT_FSIZE, (100, before[1]))
        try:
            self.assert_told("File too large", self.new)
            self.assert_told("File too large", self.old, over=True)
        finally:
            resource.setrlimit(resource.RLIMIT_FSIZE, before)

    def test_no_such_folder_and_no_plain_file(self):
        self.assert_told("No such file or directory", os.path.join(self.folder, "no", "new.txt"))
        self.assert_told("no plain file", self.folder, over=True)
        with self.assertRaises(Trouble):
            store("/dev/full", b"data", self.old, over=True)
        with self.assertRaises(Trouble):
            store(self.new + "\0", b"data", self.old)


if __name__ == "__main__":
    unittest.main()
