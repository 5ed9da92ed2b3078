"""The programs round the proved one. Nothing here is proved: what is written says what was changed, left out or taken."""

__version__ = "0.1"
