# The command's modules: main has its words, commands/ what each does, words their options, help their help; build has
# the proved programs, asked what is put to them and their text, refusal the sentence of a refusal; child the programs
# that are started, screen what is written, new_files the files; text/ the text forms, shown/ tables and the picture.
