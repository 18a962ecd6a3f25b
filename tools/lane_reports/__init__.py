"""What tools/lanes is made of beside the package, which makes the document: what its answers say, as tables."""
