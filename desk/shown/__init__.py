# What people see: printed for the printers' texts, tables, and plot with its scale, for levels and nodes, holdings for
# what a file holds.
