"""The examples of the folder examples/, and its page."""
