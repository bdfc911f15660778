"""The kinds of rows that tools/run_rows runs."""
