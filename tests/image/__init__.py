"""The container image of the front.

    running     builds the image that they share
    contents    what is in the image, and how it says that it is to be run
    containers  podman, and bubblewrap in its place: how both start and stop what is in the image
    serving     the front in a container: TLS, its user, its root, its office over a restart, its health
"""
