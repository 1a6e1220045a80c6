"""The earlier name of mqserve.top, which it is."""
import sys

from mqserve import top

sys.modules[__name__] = top
