"""The shared modules of the conformance kit: frames, documents, the line protocol, verdicts."""
