"""The optimiser's calls beside the Rust original and the model; tests/compare is the program."""
