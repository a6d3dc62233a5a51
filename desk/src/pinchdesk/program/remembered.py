"""The program, asked once for the same words and files: of an unfinished network most loops, paths and places leave the
same streams over, and each step goes on from what was said of one of them."""
from __future__ import annotations

import hashlib
import threading
from collections import OrderedDict
from concurrent.futures import Future

from .run import Pinch

# So many answers are kept, of at most so many characters each.
MOST_KEPT, LONGEST_KEPT = 400, 100_000


class RememberingPinch(Pinch):
    """Asks another one, and keeps what it answered. Who asks while the same is being asked waits for that answer;
    errors are not kept."""

    def __init__(self, pinch: Pinch) -> None:
        super().__init__(pinch.path)
        self.pinch = pinch
        self.lock = threading.Lock()
        self.kept: OrderedDict[bytes, Future[str]] = OrderedDict()

    def ask(self, words: list[str], files: dict[str, bytes]) -> str:
        key = digest_of(words, files)
        with self.lock:
            known = self.kept.get(key)
            if known is None:
                answer = self.kept[key] = Future[str]()
                while len(self.kept) > MOST_KEPT:
                    self.kept.popitem(last=False)
            else:
                self.kept.move_to_end(key)
        if known is not None:
            return known.result()
        return self.asked(key, answer, words, files)

    def asked(self, key: bytes, answer: Future[str], words: list[str], files: dict[str, bytes]) -> str:
        """Asks, and gives the answer to all who wait for it."""
        try:
            text = self.pinch.ask(words, files)
        except BaseException as fault:
            self.forget(key)
            answer.set_exception(fault)
            raise
        answer.set_result(text)
        if len(text) > LONGEST_KEPT:
            self.forget(key)
        return text

    def forget(self, key: bytes) -> None:
        with self.lock:
            self.kept.pop(key, None)


def digest_of(words: list[str], files: dict[str, bytes]) -> bytes:
    """What the words and all files are told apart by."""
    digest = hashlib.sha256(len(words).to_bytes(8, 'big'))
    named = (part for name, content in files.items() for part in (name.encode(), content))
    for part in (*(word.encode() for word in words), *named):
        digest.update(len(part).to_bytes(8, 'big') + part)
    return digest.digest()
