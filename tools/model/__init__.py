"""The parts of the model that tools/compare_model asks: what each text stands for, and what each form writes of a value."""
