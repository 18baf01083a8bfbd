"""A desk: another end of a page tried before the list is changed, and layouts kept to come back to."""
from __future__ import annotations

from typing import Callable, Dict, Iterable, Optional, Sequence, Tuple, Union

from . import library
from .answers import End, Ends, Measure
from .calls import Galley, ends_of, flat, lent, measured, page_words, read, refuse, word

END_WORDS = 3


class Desk:
    """A desk on a galley and a list of at most 64 pages that the marking accepts (22)."""

    def __init__(self, galley: Galley, ends: Iterable[Sequence[int]]) -> None:
        self._galley = read(galley)
        self._width = page_words(self._galley)
        self._words, answer = lent(library.DESK_WORDS), lent(library.ANSWER_WORDS)
        words = flat(ends, self._width)
        library.functions().desk_open(self._galley, len(self._galley), words, len(words), self._words, answer)
        self.opened, _ = measured(answer)
        """What the list comes to on which the desk was opened."""

    def ask(self, page: int, end: Sequence[int]) -> Measure:
        """What the list in force comes to with another end of a page, which is then pending. The list stays as it is. The last page
        has no other end (23); a refusal of the altered list, 12 to 18, leaves nothing pending."""
        new_end, answer = lent(END_WORDS), lent(library.ANSWER_WORDS)
        new_end[:self._width] = flat([end], self._width)
        library.functions().desk_ask(self._galley, len(self._galley), word(page, 'a page'), new_end, self._words, answer)
        return measured(answer)[0]

    def commit(self) -> None:
        """Puts in force what is pending (24 where nothing is)."""
        answer = lent(library.ANSWER_WORDS)
        library.functions().desk_commit(self._words, answer)
        refuse(answer)

    def save(self, name: Union[str, bytes]) -> None:
        """Keeps the list in force as a layout, under a name of 1 to 16 bytes (25). There is room for eight (27)."""
        self._named(library.functions().desk_save, name)

    def back(self, name: Union[str, bytes]) -> None:
        """Puts a layout in force (26 where none has the name). Then nothing is pending."""
        self._named(library.functions().desk_back, name)

    def drop(self, name: Union[str, bytes]) -> None:
        """Frees a name (26)."""
        self._named(library.functions().desk_drop, name)

    @property
    def ends(self) -> Ends:
        """The list in force."""
        return self._list(library.DESK_LIST)

    @property
    def pending(self) -> Optional[Tuple[int, End]]:
        """The page whose new end is pending, and that end."""
        page = self._words[library.DESK_PAGE]
        return (page, tuple(self._words[library.DESK_END:library.DESK_END + self._width])) if page else None

    @property
    def layouts(self) -> Dict[bytes, Ends]:
        """The layouts that are held, by their names as bytes."""
        held = {}
        for begins in range(library.DESK_LAYOUTS, library.DESK_WORDS, library.LAYOUT_WORDS):
            length = self._words[begins + library.LAYOUT_NAME_LENGTH]
            if length:
                at = (begins + library.LAYOUT_NAME) * 4  # bytes of a word
                held[bytes(self._words)[at:at + length]] = self._list(begins + library.LAYOUT_LIST)
        return held

    def _list(self, begins: int) -> Ends:
        return ends_of(self._words[begins:begins + self._words[library.DESK_COUNT] * self._width], self._width)

    def _named(self, call: Callable[..., int], name: Union[str, bytes]) -> None:
        data, answer = name.encode() if isinstance(name, str) else name, lent(library.ANSWER_WORDS)
        call(data, len(data), self._words, answer)
        refuse(answer)
