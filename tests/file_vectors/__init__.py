"""The test files of tests/make_file_vectors.py, a module for each group."""
