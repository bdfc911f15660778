"""A prompt for lines of rosm_debug, with history, editing, completion, colour, and the machine in view."""
