"""How the pictures of the documents are drawn."""
