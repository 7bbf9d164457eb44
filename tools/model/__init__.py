"""Document 01 in Python, and what the programs `replay` and `bench` must print by it. It imports no other folder of tools/."""
