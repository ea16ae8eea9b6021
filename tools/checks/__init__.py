"""What the gate or a person runs against the program and the documents."""
