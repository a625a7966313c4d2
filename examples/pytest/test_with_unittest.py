"""The same without pytest.

    cd examples/pytest && POST_HOUSE=../../crates/post_house/out/post_house python3 -m unittest
"""

import unittest

from post_house_server import Server

MESSAGE = b"Subject: hello\r\n\r\nhi\r\n"


class Delivery(unittest.TestCase):
    """Each test has a server of its own."""

    def setUp(self):
        self.server = Server(("alice", "alice/Work"))
        self.server.start()
        self.addCleanup(self.server.stop)

    def test_a_folder_has_its_own_mail(self):
        """Mail for alice+work goes to her folder."""
        answers = self.server.deliver(MESSAGE, ["alice+work@example.org"])
        self.assertEqual([code for code, _ in answers.values()], [250])
        self.assertEqual(self.server.messages("alice"), [])
        self.assertEqual(self.server.messages("alice", "Work"), [b"Return-Path: <sender@example.com>\r\n" + MESSAGE])

    def test_a_client_is_told_of_the_stop(self):
        """Who is connected reads BYE, and then the end."""
        client = self.server.imap("alice")
        self.server.stop()
        self.assertEqual(client.readline(), b"* BYE Shutting down\r\n")
        self.assertEqual(client.readline(), b"")
        client.shutdown()


if __name__ == "__main__":
    unittest.main()
