"""Tests of the built program over real folders, by topic; tests/real_folder.py runs them."""
