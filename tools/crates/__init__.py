"""What works on the list of crates: its picture, its builds and what they cost."""
