"""The parts of scripts/test and scripts/prove, and the self-tests of scripts.

A script of this folder that calls one of scripts/ puts that folder on the path first, so that each can be called alone.
"""
