# The text forms: fault_tree with galileo and open_psa, and source for either; sheet and book with cells and figures;
# pair for a tree with its sheet, names for the file beside them; lines for the places of a text, faults for what is
# wrong with it.
