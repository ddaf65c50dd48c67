"""Writes a model and its response as texts, for `scripts/plan`."""

from pathlib import Path

import cpsolve
from google.protobuf import text_format


def write_texts(model, response, files):
    """Writes both to files, the model to the first. Where `files` is empty it writes nothing."""
    if files:
        model_file, response_file = files
        Path(model_file).write_text(cpsolve.canonical_text(model))
        Path(response_file).write_text(text_format.MessageToString(response))
