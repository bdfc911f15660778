"""Pictures of heaps, the flex store, areas, modules and memory as text, from records of a script."""
