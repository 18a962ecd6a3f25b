"""What tools/fuzz, fuzz_claims and refuse_each share, by files."""
