"""Queries over a workspace, by the program bq: what the command bzlq is made of.

- bq.py: the client, for programs in Python; it needs no other file
- workspace: a workspace's files, its bundle, and where its root is
- facts: the graph of targets
- overlay: what stands in for other repositories and for what bq leaves out
- cache: overlays and bundles that are kept from run to run
- hints: where a fault is and why
- diff: what a change in git changes
- cli: the words of the command, and how a script runs and ends
"""
