"""The page of bin/playground."""
