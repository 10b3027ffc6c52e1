"""The inputs that bench/fuzz keeps."""
import collections
import random
from collections.abc import Hashable, Sequence
from typing import Generic, TypeVar

Input = TypeVar("Input")
MOST = 300


class Corpus(Generic[Input]):
    """The inputs that stayed, and what was new of them."""

    def __init__(self, chance: random.Random):
        self.chance = chance
        self.replies: set[Hashable] = set()
        self.orders: set[Hashable] = set()
        # Those with a new reply, and those with a new order alone.
        self.inputs: list[Input] = []
        self.last: collections.deque[Input] = collections.deque()

    def offer(self, tried: Input, replies: Sequence[Hashable], order: Hashable) -> bool:
        """Whether an input stays."""
        is_new_reply = not self.replies.issuperset(replies)
        is_new = is_new_reply or order not in self.orders
        self.replies.update(replies)
        self.orders.add(order)
        if is_new_reply:
            self.inputs.append(tried)
            del self.inputs[:-MOST]
        elif is_new:
            self.last.append(tried)
            while self.last and len(self) > MOST:
                self.last.popleft()
        return is_new

    def pick(self) -> Input:
        inputs = self.last if self.last and (not self.inputs or self.chance.random() < 0.3) else self.inputs
        return inputs[self.chance.randrange(len(inputs))]

    def __len__(self) -> int:
        return len(self.inputs) + len(self.last)
