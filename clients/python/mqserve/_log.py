"""The log of the package, logging.getLogger("mqserve"): connections that are lost and made anew, and messages that nobody got."""
import logging

log = logging.getLogger("mqserve")
log.addHandler(logging.NullHandler())
