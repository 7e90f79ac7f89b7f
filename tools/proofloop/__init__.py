"""The parts of tools/proof, the loop in which a crate's proofs are made.

tree knows the repository and runs rt; said reads what rt prints; times reads what a check left behind; alike reads laws. Only tree
runs a program, so that tools/test.py can test the rest on texts.
"""
