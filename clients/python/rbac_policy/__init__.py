"""Policies of an office as files, and people in bulk: the commands `rbac-policy` and `rbac-people`, for Python 3.11 or later.

docs/howto/policy.md of the repository shows how they are used. What a policy gives, and whether an office accepts it, is answered by the
program `rbac`, over an office in memory; what is here reads files, orders commands, and sends them.
"""

import sys

if sys.version_info < (3, 11):
    raise ImportError("rbac_policy needs Python 3.11 or later")
