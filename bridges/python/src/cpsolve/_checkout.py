"""The checkout that has this package; of an installed package, that from which it was installed."""

from pathlib import Path

CHECKOUT = Path(__file__).resolve().parents[4]
