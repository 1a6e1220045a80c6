"""The earlier name of mqserve.jobs, which it is."""
import sys

from mqserve import jobs

sys.modules[__name__] = jobs
