" Programs and services of Lunguepo. Vim has other kinds of files for both endings, so theirs are set over.
autocmd BufNewFile,BufRead *.rbi set filetype=rbiprogram
autocmd BufNewFile,BufRead *.rbs set filetype=rbiservice
