"""The program is killed at random moments, and the office continues from what is in its file.

    runs        a replay is killed, run after run of one office
    others      `init`, `import` and `migrate` are killed
"""
