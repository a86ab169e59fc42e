# The words of a command: its options apart from the others.
from desk.screen import Stop


def options_apart(command, words, known):
    """The words that are no options, and what each option was given: a word, or True where it takes none.

    `known` has for each option the name of its word, or None. After the word -- nothing is an option."""
    others, given, words = [], {}, list(words)
    while words:
        word = words.pop(0)
        if word == "--":
            others += words
            break
        if word not in known:
            if word.startswith("-") and len(word) > 1:
                raise Stop(2, f"nekbrod {command} has no option {word}; see nekbrod {command} --help")
            others.append(word)
            continue
        if word in given:
            raise Stop(2, f"{word} is given twice; see nekbrod {command} --help")
        if known[word] is not None and not words:
            raise Stop(2, f"{word} takes a word, {known[word]}, and there is none; see nekbrod {command} --help")
        given[word] = True if known[word] is None else words.pop(0)
    return others, given
