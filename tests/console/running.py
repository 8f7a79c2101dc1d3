"""The variables that choose what the checks of the console do besides."""

# That broken consoles are to be tried.
LONG = "RBAC_CONSOLE_LONG"

# The folder into which the pictures of the pages are written: RBAC_CONSOLE_PICTURES=FOLDER bin/test tests/console -k pictures
PICTURES = "RBAC_CONSOLE_PICTURES"
