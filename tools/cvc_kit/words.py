"""Words of the command line that several subcommands share."""

import argparse


def top_word(word: str) -> str:
    """The name in `top=NAME`."""
    if not word.startswith("top=") or word == "top=":
        raise argparse.ArgumentTypeError(f"`{word}` is not of the form top=NAME")
    return word[4:]


def top_or_name(word: str) -> str:
    """The name in `top=NAME` or in `NAME`."""
    return word[4:] if word.startswith("top=") and len(word) > 4 else word
