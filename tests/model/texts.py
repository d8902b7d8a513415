"""Texts, processes and digests. A text is a string of the characters 0 to 255, one for each byte,
so strings are in the order of bytes."""

from collections import namedtuple
from hashlib import md5

Pid = namedtuple("Pid", "name creation number")


def is_text(text):
    return 1 <= len(text) <= 255 and all("\x21" <= letter <= "\x7e" for letter in text)


def is_name(text):
    return is_text(text) and text.count("@") == 1 and text[0] != "@" and text[-1] != "@"


def text_of(octets):
    return octets.decode("latin-1")


def octets_of(text):
    return text.encode("latin-1")


def number_of(word, limit):
    """The number that a word says, or None."""
    if (
        not 1 <= len(word) <= 20
        or not all("0" <= digit <= "9" for digit in word)
        or (word[0] == "0" and word != "0")
    ):
        return None
    return int(word) if int(word) < limit else None


def pid_of(word):
    parts = word.rsplit("/", 2)
    if len(parts) != 3 or not is_name(parts[0]):
        return None
    creation, number = number_of(parts[1], 1 << 32), number_of(parts[2], 1 << 64)
    return None if creation is None or number is None else Pid(parts[0], creation, number)


def pid_text(pid):
    return f"{pid.name}/{pid.creation}/{pid.number}"


def digest_of(cookie, challenge):
    return md5(octets_of(cookie + str(challenge))).digest()
