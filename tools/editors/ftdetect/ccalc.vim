" Which files are descriptions of ccalc: all that end in .ccalc, and those that end in .cc and do not look like C++.
au BufRead,BufNewFile *.ccalc set filetype=ccalc
au BufRead,BufNewFile *.cc if search('^\s*:-\|^caused\>', 'nw') | set filetype=ccalc | endif
