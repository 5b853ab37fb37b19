"""Texts of definitions, split outside of their brackets."""
from __future__ import annotations

import functools
import re


def parts_at(text: str, sign: str) -> list[str]:
    """A text, split at a sign outside of all brackets."""
    parts, depth = [""], 0
    for it in re.findall(r"[(\[{]|[)\]}]|[^()\[\]{}]+", text):
        if len(it) == 1 and it in "([{)]}":
            depth += 1 if it in "([{" else -1
        first, *others = it.split(sign) if depth == 0 else [it]
        parts[-1] += first
        parts += others
    return [it for it in (re.sub(r"\s+", " ", it).strip() for it in parts) if it]


@functools.lru_cache(maxsize=None)
def words_at(text: str) -> tuple[str, ...]:
    """A text, split at spaces outside of all brackets."""
    return tuple(parts_at(re.sub(r"\s+", " ", text), " "))


@functools.lru_cache(maxsize=None)
def bare(text: str) -> str:
    """A text without brackets around the whole of it."""
    while re.fullmatch(r"\(.*\)", text) and is_closed(text[1:-1]):
        text = text[1:-1].strip()
    return text


def is_closed(text: str) -> bool:
    """Whether each bracket of a text closes one that it opens."""
    depth = 0
    for it in re.findall(r"[()]", text):
        depth += 1 if it == "(" else -1
        if depth < 0:
            return False
    return depth == 0
