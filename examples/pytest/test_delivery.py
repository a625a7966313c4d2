"""A test with the fixture of conftest.py.

    POST_HOUSE=crates/post_house/out/post_house pytest examples/pytest
"""

MESSAGE = b"Subject: hello\r\n\r\nhi\r\n.\r\n"


def test_a_message_is_read_as_it_was_brought(mail_server):
    """Two copies stand; a recipient whom nobody knows is refused."""
    answers = mail_server.deliver(MESSAGE, ["alice@example.org", "bob@example.org", "carol@example.org"])
    assert [code for code, _ in answers.values()] == [250, 250, 550]
    for user in ("alice", "bob"):
        assert mail_server.messages(user) == [b"Return-Path: <sender@example.com>\r\n" + MESSAGE]
