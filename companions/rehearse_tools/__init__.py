"""The companions of rehearse: what stands round the program, as one package with one command."""
