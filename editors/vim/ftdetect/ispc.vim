" Written by tools/editor_words.py from the words of the lexer.
autocmd BufNewFile,BufRead *.ispc setfiletype ispc
