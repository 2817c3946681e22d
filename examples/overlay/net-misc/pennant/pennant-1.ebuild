# Copyright 2026 the egencache authors
# Distributed under the terms of the MIT License

DESCRIPTION="Prints the flag of a signal"
SLOT=0
