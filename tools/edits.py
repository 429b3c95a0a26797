"""What an edit of must_fail.py or giving_up.py makes of the files that it names.

Its lines are `file: PATH` and, below, pairs of `old: TEXT` and `new: TEXT`. What is replaced stands once in its file, as the pairs before
left it. Lines that begin with `#` say what a user would have seen.
"""


def changed(edit, top, others=()):
    """The texts that the edit makes, by their paths below `top`. A ValueError says why it can't be applied. Lines that begin with a word of
    `others` aren't read."""
    texts, path, old = {}, None, None
    for line in edit.read_text().splitlines():
        word, _, text = line.partition(": ")
        if word == "file":
            path = text
            if not (top / path).is_file():
                raise ValueError(f"there is no file {path}")
            texts.setdefault(path, (top / path).read_text())
        elif word == "old" and path is not None:
            old = text
            if texts[path].count(old) != 1:
                raise ValueError(f"`{old.strip()}` stands {texts[path].count(old)} times in {path}")
        elif word == "new" and old is not None and text != old:
            texts[path], old = texts[path].replace(old, text), None
        elif word not in others and not line.startswith("# "):
            raise ValueError(f"a line is out of place: {line}")
    if old is not None or path is None:
        raise ValueError("it ends too early")
    return texts


def unfit(edit, top, others=()):
    """Why the edit can't be applied, or None."""
    try:
        changed(edit, top, others)
    except ValueError as error:
        return str(error)
    return None


def meaning(edit):
    """What a user would have seen: the first line."""
    return edit.read_text().partition("\n")[0].removeprefix("# ")
