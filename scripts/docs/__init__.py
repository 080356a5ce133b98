"""The makers of the pages of docs/, which scripts/pages.py calls."""
