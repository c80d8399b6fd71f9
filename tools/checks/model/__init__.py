"""A plain model of the commands that need no link: what a run prints, its status, and the files that it leaves.

It was written apart from the program and from the definitions that the program is proved to meet. It is slow and
keeps everything in lists, so that each rule can be read where it stands.
"""
