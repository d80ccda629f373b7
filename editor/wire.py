"""Messages between an editor and what serves it: JSON behind a header, over standard input and output. Language servers and debug adapters share this
framing, and it stands here alone."""
import json
import os
import re
import select

# What is read at a time, the longest header, and the longest message.
CHUNK, LONGEST_HEADER, LONGEST = 65536, 4096, 1 << 26
LENGTH = re.compile(rb"^content-length:[ \t]*(\d{1,9})[ \t]*\r?$", re.I | re.M)


class Quiet(Exception):
    """Nothing came in the time that was given."""


class Unreadable(Exception):
    """A message came whose content is no JSON object. The next one can be read."""


class Lost(Exception):
    """What came has no header of a message, so nobody knows where the next one begins."""


class Wire:
    """Two descriptors, of which one gives messages and the other takes them."""

    def __init__(self, source=0, target=1):
        self.source, self.target, self.waiting, self.has_left = source, target, b"", False

    def receive(self, seconds=None):
        """The next message, or None if the other side has left, also in the middle of a message. Raises Quiet if nothing comes in so many seconds."""
        while not self.has_left:
            content = self.take()
            if content is not None:
                return message_of(content)
            if seconds is not None and not select.select([self.source], [], [], seconds)[0]:
                raise Quiet
            come = os.read(self.source, CHUNK)
            self.has_left = not come
            self.waiting += come
        return None

    def take(self):
        """The content of the first message, if all of it has come."""
        head, blank, rest = self.waiting.partition(b"\r\n\r\n")
        if not blank:
            if len(head) > LONGEST_HEADER:
                raise Lost("a header has no end")
            return None
        length = LENGTH.search(head)
        if not length or len(head) > LONGEST_HEADER or int(length[1]) > LONGEST:
            raise Lost("a header has no Content-Length that can be served")
        if len(rest) < int(length[1]):
            return None
        self.waiting = rest[int(length[1]):]
        return rest[:int(length[1])]

    def send(self, message):
        """Sends a message. If nobody reads any more, `receive` says so next."""
        content = json.dumps(message, ensure_ascii=False, separators=(",", ":")).encode("utf-8", "replace")
        content = b"Content-Length: %d\r\n\r\n%b" % (len(content), content)
        try:
            while content:
                content = content[os.write(self.target, content):]
        except OSError:
            self.has_left = True


def message_of(content):
    """The object that a content is."""
    try:
        message = json.loads(content)
    except (ValueError, RecursionError) as fault:
        raise Unreadable(f"a message is no JSON: {fault}") from None
    if not isinstance(message, dict):
        raise Unreadable("a message is no object")
    return message
