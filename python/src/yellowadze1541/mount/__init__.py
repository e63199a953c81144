"""A disk image as a folder of this computer, by FUSE.

    python -m yellowadze1541.mount IMAGE FOLDER [--read-only] [--foreground]
"""
