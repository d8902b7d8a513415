"""Lines to a node and from it: one answer for each line sent, and news, which begin with `! `
and come unasked."""

import re
import socket
import threading
import time

from waiting import LIMIT, shown


class Talk:
    """A conversation over two binary files. Its lines are read by a thread, as they come."""

    def __init__(self, who, lines, write):
        self.who = who
        self.answers = []
        self.news = []
        self.ended = False
        self._write = write
        self._told = 0
        self._moved = threading.Condition()
        self._asking = threading.Lock()
        threading.Thread(target=self._read, args=(lines,), daemon=True).start()

    def _read(self, lines):
        try:
            for line in lines:
                self._take(line.decode("ascii", "replace").rstrip("\n"))
        except (OSError, ValueError):
            pass
        with self._moved:
            self.ended = True
            self._moved.notify_all()

    def _take(self, line):
        with self._moved:
            (self.news if line.startswith("! ") else self.answers).append((time.monotonic(), line))
            self._moved.notify_all()

    def _await(self, what, ready, limit):
        """The first thing that `ready` gives that isn't None."""
        with self._moved:
            found = self._moved.wait_for(lambda: ready() is not None or self.ended, limit)
            result = ready()
            if result is None:
                came = "the end of its lines" if found else "nothing"
                raise AssertionError(
                    f"expected {what} of {self.who} within {limit} s,"
                    f" came {came} behind {shown(self._last())}"
                )
            return result

    def _last(self):
        return [line for _, line in self.answers[-2:] + self.news[-2:]]

    def next_answer(self, what, limit=LIMIT):
        self._await(what, lambda: self.answers[0] if self.answers else None, limit)
        with self._moved:
            return self.answers.pop(0)[1]

    def send(self, line):
        self._write(line.encode("ascii", "replace") + b"\n")

    def ask(self, line, limit=LIMIT):
        """The answer to a line."""
        with self._asking:
            self.send(line)
            return self.next_answer(f"an answer to {shown(line)}", limit)

    def told(self, pattern, limit=LIMIT):
        """The next news that match, as (when, match). Those before them count as seen."""
        return self.told_all(pattern, limit=limit)[0]

    def told_all(self, *patterns, limit=LIMIT):
        """The next news that match, of each pattern, in whatever order they come. All up to the
        last of them count as seen."""

        def ready():
            places = [self._place_of(pattern) for pattern in patterns]
            return None if None in places else places

        places = self._await(f"news like {patterns}", ready, limit)
        self._told = max(places) + 1
        return [
            (self.news[place][0], re.fullmatch(pattern, self.news[place][1]))
            for place, pattern in zip(places, patterns)
        ]

    def _place_of(self, pattern):
        return next(
            (
                place
                for place in range(self._told, len(self.news))
                if re.fullmatch(pattern, self.news[place][1])
            ),
            None,
        )

    def untold(self, pattern):
        """The news so far that match, seen or not."""
        with self._moved:
            return [line for _, line in self.news if re.fullmatch(pattern, line)]

    def await_end(self, limit=LIMIT):
        """Until the node has closed its end of the conversation."""
        with self._moved:
            if not self._moved.wait_for(lambda: self.ended, limit):
                raise AssertionError(
                    f"expected the end of {self.who}'s lines within {limit} s,"
                    f" came {shown(self._last())}"
                )


class Control(Talk):
    """A connection to a node's control socket."""

    def __init__(self, path):
        self.socket = socket.socket(socket.AF_UNIX)
        self.socket.settimeout(LIMIT)
        self.socket.connect(path)
        self.socket.settimeout(None)
        super().__init__(f"control {path}", self.socket.makefile("rb"), self.socket.sendall)

    def close(self):
        try:
            self.socket.shutdown(socket.SHUT_RDWR)
        except OSError:
            pass
        self.socket.close()
