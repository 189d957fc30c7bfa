"""Writes texts of networks as `--dump` does: the rules of docs/LANGUAGE.md once more, read apart from the code."""

from meaning import spelled
from reading import COLLECTIONS, CONTINUATIONS, EDITED, GATHERINGS, KEYWORDS, ONE, ONE_AND_FUNCTION, OVER_VALUE, SWITCHES, TWO, TWO_AND_FUNCTION
from reading import WITH_FUNCTION, Reader, tokens_of, unescaped

# Words and symbols with a bracket of their own behind them.
BEFORE_BRACKET = {
    *(ONE + TWO + ONE_AND_FUNCTION + TWO_AND_FUNCTION + WITH_FUNCTION + OVER_VALUE + SWITCHES + CONTINUATIONS + GATHERINGS + EDITED),
    *COLLECTIONS[2:5],
    ">=-",
}
# Tokens behind which the key type of a text 2 stands.
BEFORE_KEY = ("Table", "empty", "[")


def is_name(token):
    return token.kind == "word" and token not in KEYWORDS and token != "_"


def needs_keys(tokens):
    """Whether a text 2 has a key type Text, or begins a process anew."""
    pairs = [*zip(tokens, tokens[1:])]
    return any(before in BEFORE_KEY and token == "Text" or before == "fresh" and is_name(before) and is_name(token) for before, token in pairs)


def without_keys(tokens):
    """The tokens of a text 1."""
    kept = []
    for at, token in enumerate(tokens):
        is_key = at > 0 and tokens[at - 1] in BEFORE_KEY
        is_colon = at > 1 and tokens[at - 2] == "["
        if not is_key and not is_colon:
            kept.append(token)
    return kept


def canonical(data):
    """The text that is written for one that can be read."""
    reader = Reader(tokens_of(data))
    reader.network()
    tokens = reader.tokens[:-1]
    has_keys = reader.version > 1 and needs_keys(tokens)
    text, before = "", None
    for token in tokens if has_keys or reader.version == 1 else without_keys(tokens):
        text += blank(before, token) + written(token)
        before = token
    number = text.index(";")
    return f"network {2 if has_keys else 1}{text[number:]}\n".encode("utf-8")


def written(token):
    if token.kind == "number":
        return str(int(token))
    return spelled(unescaped(token)) if token.kind == "text" else token


def blank(before, token):
    """What stands between two tokens."""
    if before is None:
        return ""
    if token == "template":
        return "\n"
    if token.kind == "symbol" and token in ",;:)]" or before.kind == "symbol" and before in "([":
        return ""
    is_own = token == "(" and token.kind == "symbol" and (before in BEFORE_BRACKET and before.kind != "text" or is_name(before))
    return "" if is_own else " "
