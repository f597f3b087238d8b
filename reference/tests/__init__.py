"""What the implementation itself is tested by: published vectors, sqlite3, and its own laws."""
