"""What the scripts of bin/, checks/ and bench/ share: the crates, the kit, what is built, sources,
mutants and definitions. It wants Python 3.8 or later, and nothing else."""
