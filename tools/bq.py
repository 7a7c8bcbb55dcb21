"""The module bzlq/bq.py, by its earlier place."""
import os
import sys

sys.path.insert(0, os.path.dirname(os.path.dirname(os.path.realpath(__file__))))
from bzlq import bq  # noqa: E402

sys.modules[__name__] = bq
