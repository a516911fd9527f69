"""What is there."""
from __future__ import annotations

TYPE_CHECKING = False  # without the module typing, which takes long to read
if TYPE_CHECKING:
    from typing import TypeVar

    It = TypeVar("It")


def there(it: It | None) -> It:
    """What whoever asks for it knows to be there."""
    if it is None:
        raise AttributeError("what was asked for is not there")
    return it
