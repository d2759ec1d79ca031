"""The fixed list of files for the optimiser; tests/make_net_vectors.py is the program."""
