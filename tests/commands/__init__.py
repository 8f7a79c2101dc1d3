"""The commands of bin/, and how the checks of this folder are run.

    setup        what bin/setup installs, and bin/test on a machine without pytest
    runs         what is reported of checks that fail, hang, end their process, compare nothing or lack something
    copies       bin/rbac and bin/release notice a program, a manifest or a source that was changed
    packages     what is in the Debian package, and that it is made of the same bytes each time
    completions  what bash, zsh and fish offer
    folders      a folder for a release, and bin/verify
    edits        each must-fail edit can be applied
"""
