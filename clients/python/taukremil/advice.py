"""The program's explanations in the words of this module: its options are arguments here, and its lines are requests."""

from __future__ import annotations

import re

from .header import LARGEST, LEAST

# The explanations of a request or a start begin so. Others are of a file, and begin with its path.
OF_REQUESTS = ("line ", "The batch ", "Nothing was run.")
OPTION = re.compile(r"--([a-z][a-z-]*)")
SENTENCES = {
    "Use --create to create a store there.": 'Pass create="missing" to create a store there.',
    "Wait until it ends, or use --wait.": "Wait until it ends, or pass wait=SECONDS.",
    "With --create a new store replaces what it holds.": "With create=True a new store replaces what it holds.",
    "A stream can save the store with .copy.": "copy_to(path) saves the store.",
    "A session that streams, flushes, cleans, upgrades or creates needs permission to write the file.": (
        "A store needs permission to write its file."
    ),
}
ADVICE = {
    2: "Shorten the key, or copy the store with copy_to(path, max_key=N).",
    3: "Shorten the value, or copy the store with copy_to(path, max_value=N).",
    4: "Divide the batch or its wipes. More than 65535 commands do it or undo it.",
    5: "workers must be from 1 to 64, and grain from 1 to 65535.",
    6: "Use smaller batches or more memory. An allocation failed.",
    10: "Copy the store with copy_to(path, segments=N) into a larger log. The log has no room for this.",
}


def _range_of(name: str) -> str:
    least, most = getattr(LEAST, name), getattr(LARGEST, name)
    also = {"seg_size": ", and hold a full page", "segments": "; fewer pairs need fewer"}.get(name, "")
    return f"{name} must be from {least} to {most}{also}."


def translate(fault: str, why: str) -> str:
    """Returns the explanation `why` of `fault`, such as "fault 2 KeyTooLong 0", in this module's words."""
    _, number, *rest = fault.split()
    if why.startswith(OF_REQUESTS):
        if number == "1" and rest:
            return _range_of(rest[-1])
        why = ADVICE.get(int(number), re.sub(r"^line \d+: ", "", why))
    for sentence, ours in SENTENCES.items():
        why = why.replace(sentence, ours)
    return OPTION.sub(lambda option: option[1].replace("-", "_"), why)
