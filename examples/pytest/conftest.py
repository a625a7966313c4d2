"""The fixture: `def test_something(mail_server)` gets a server of its own for alice and bob, which is stopped in good order behind the test."""

import pytest

from post_house_server import Server


@pytest.fixture
def mail_server():
    """A server that listens."""
    with Server(("alice", "alice/Work", "bob")) as server:
        yield server
