"""The words of a call. A tag may be `--`, or begin with `-` as an option does: the tag of `explain-tag` is marked."""

from __future__ import annotations

from typing import List

MARK = "="

LIST = "--list"
OPTIONS = ("--json", "-h", "--help")

#: `explain-tag FILE TABLE TAG`
WORDS_BEFORE_TAG = 2


def is_option(word: str) -> bool:
    return word in OPTIONS or word == LIST or word.startswith(f"{LIST}=")


def unmarked(word: str) -> str:
    return word[len(MARK) :]


def with_marked_tag(words: List[str]) -> List[str]:
    """The words of a call, the tag of `explain-tag` marked; `--` in front of another tag is no tag.

    >>> with_marked_tag(["explain-tag", "a.export", "WORDTAG", "--", "--list", "b.export"])
    ['explain-tag', 'a.export', 'WORDTAG', '=--', '--list', 'b.export']
    >>> with_marked_tag(["explain-tag", "a.export", "WORDTAG", "--", "-LRB-"])
    ['explain-tag', 'a.export', 'WORDTAG', '=-LRB-']
    """
    if words[:1] != ["explain-tag"]:
        return words
    made, rest, before = words[:1], words[1:], 0
    while rest and before < WORDS_BEFORE_TAG + 1:
        taken = 2 if rest[0] == LIST else 1
        if not is_option(rest[0]):
            if before == WORDS_BEFORE_TAG:
                if rest[0] == "--" and rest[1:] and not is_option(rest[1]):
                    rest = rest[1:]
                rest = [MARK + rest[0], *rest[1:]]
            before += 1
        made, rest = made + rest[:taken], rest[taken:]
    return made + rest
